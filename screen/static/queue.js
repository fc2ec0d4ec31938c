// Steps are done one after another, each on what the one before it left: who types ahead need not wait.
export const events = { settled: null, failed: null };

let queue = Promise.resolve();
let waiting = 0;
let place = 0;

export const isBusy = () => waiting > 0;

// A step that is done when those before it are done, and is left out if the analyst went elsewhere before that.
export function later(step) {
  const mine = place;
  waiting++;
  queue = queue.then(() => (mine === place ? step() : null)).then(events.settled).catch(events.failed).finally(() => {
    waiting--;
  });
  return queue;
}

// A click that goes elsewhere is done at once. What waits still was meant for what was open; what comes, for the new.
export function now(step) {
  place++;
  const before = queue;
  const done = Promise.resolve().then(step);
  queue = Promise.resolve();
  return later(() => Promise.all([before, done]));
}
