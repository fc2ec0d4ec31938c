// What is drawn anew after each step of anyone is requested once at a time. All who want it while an answer is under
// way share one request after it: so a page on a busy machine requests no faster than it gets answers, and draws.

// Makes a function that does this work for what is looked at; its promise is of work that began after the call.
export function again(work, lookedAt) {
  let latest = null;
  function begin() {
    const mine = { about: lookedAt(), isOver: false, next: null };
    latest = mine;
    mine.done = work().finally(() => {
      mine.isOver = true;
    });
    return mine.done;
  }
  return () => {
    const mine = latest;
    if (!mine || mine.about !== lookedAt() || (mine.isOver && !mine.next)) return begin();
    mine.next ??= mine.done.catch(() => null).then(() => (latest === mine ? begin() : latest.done));
    return mine.next;
  };
}
