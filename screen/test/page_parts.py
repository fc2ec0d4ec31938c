"""What tests read of a page: expressions of JavaScript."""

OPEN = "document.querySelector('#bar h2').textContent"
NEXT_LENGTH = "document.getElementById('next-list').dataset.length"
SCHEDULES = "document.querySelectorAll('.sched').length"
CHOSEN_THREAD = "document.querySelector('#next-list .next.on')?.dataset.t"
AIM = "[...document.querySelectorAll('#bar .aim .short .num')].map((e) => e.textContent).join()"
EXPLAINED = "document.querySelector('#centre.none #note .explained')?.textContent.includes('apart')"
RACES = "document.querySelectorAll('.race').length"
FEED = "[...document.querySelectorAll('#feed .entry .at')].map((e) => e.textContent).join()"
OLDER = "[...document.querySelectorAll('#feed button')].find((b) => b.textContent === 'older')"
CURSOR = "document.querySelector('#space .row.on')?.dataset.p"
DID = "[...document.querySelectorAll('#feed .did')].map((e) => e.textContent.replace(/ +/g, ' ').trim()).join('; ')"
STAGE = "document.getElementById('stage')"
SCROLLED = f"{STAGE}.scrollTop"
ROW = 22
TOP_ROW = (
    f"(() => {{ const s = {STAGE}.getBoundingClientRect(); "
    "return document.elementFromPoint(s.left + 60, s.top + 4)?.closest('.row')?.dataset.p; })()"
)
AT_END = f"Math.abs({STAGE}.scrollHeight - {STAGE}.clientHeight - {SCROLLED}) < 2"
NARROWER = (
    "document.getElementById('next').classList.add('sized'); "
    "document.documentElement.style.setProperty('--next-height', '{}px')"
)
EMPTY = "document.querySelector('#{} .empty')?.textContent"
# Keys in one moment, before the page can do what the first one means.
AT_ONCE = (
    "for (const key of {}) "
    "document.activeElement.dispatchEvent(new KeyboardEvent('keydown', {{ key, bubbles: true }}));"
)
