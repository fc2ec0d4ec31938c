package main

const (
	opRead = iota
	opWrite
	opAcquire
	opRelease
	opFork
)

var opWords = []string{"r", "w", "acq", "rel", "fork"}

// What an object of the trace is.
const (
	variableOf = iota
	lockOf
	atomicOf
	readerOf
	heldOf
	fileOf
	passOf
	meetingOf
	slotOf
	sendsOf
	receivesOf
	stateOf
	signalOf
	finalOf
	syncOf = 64 // the variable beside a lock
)

// The names of objects have these before the name of the variable.
var before = map[uint8]string{variableOf: "", lockOf: "", atomicOf: "atomic:", readerOf: "", heldOf: "atomic:held:",
	fileOf: "", passOf: "", meetingOf: "meeting:", slotOf: "slot:", sendsOf: "sends:", receivesOf: "receives:",
	stateOf: "state:", signalOf: "signal:", finalOf: "finalizers"}

type objectKey struct {
	place
	number int64
	what   uint8
}

// A line of the trace: the object is a variable, a lock or a goroutine.
type line struct {
	spot
	thread uint32
	object int32
	op     uint8
}

type passKey struct {
	what uint8
	place
}

// A release that acquires come after: a lock and a variable for each, which one thread writes and others read.
type passed struct {
	thread         uint32
	lock, variable int32
	seen           map[uint32]bool
}

// A range of the numbers that waits of a condition have, which one signal ends.
type signal struct {
	upto uint32
	pass passed
}

// A translation makes the lines of the trace of one pass. The objects have the same numbers in each pass.
type translation struct {
	*decoder
	emit     func(line)
	forget   func(variable int32)
	wants    func(line) // a request of a lock, which is no line of the trace
	objects  map[objectKey]int32
	keys     []objectKey
	passes   map[passKey][]passed
	signals  map[place][]signal
	slotUses map[place]int
	locks    *lockState
	spoke    map[uint32]bool
	number   int64
}

func (d *decoder) translating(emit func(line), forget func(int32)) *translation {
	return &translation{decoder: d, emit: emit, forget: forget, objects: map[objectKey]int32{},
		passes: map[passKey][]passed{}, signals: map[place][]signal{}, slotUses: map[place]int{},
		locks: newLockState(), spoke: map[uint32]bool{}}
}

func (d *decoder) translate(emit func(line), forget func(int32)) {
	d.pass(d.translating(emit, forget).one)
}

func (t *translation) object(what uint8, at place, number int64) int32 {
	key := objectKey{at, number, what}
	o, there := t.objects[key]
	if !there {
		o = t.fresh(key)
		t.objects[key] = o
	}
	return o
}

func (t *translation) fresh(key objectKey) int32 {
	t.keys = append(t.keys, key)
	return int32(len(t.keys) - 1)
}

func (t *translation) line(r *record, op uint8, object int32) {
	if t.finalizes {
		t.spoke[r.thread] = true
	}
	t.emit(line{r.spot(), r.thread, object, op})
}

// A lock and the variable beside it.
type pair struct{ lock, variable int32 }

func (t *translation) pair(what uint8, at place, number int64) pair {
	return pair{t.object(what, at, number), t.object(what|syncOf, at, number)}
}

// A section of a lock that reads or writes its variable.
func (t *translation) section(r *record, of pair, reads, writes bool) {
	t.line(r, opAcquire, of.lock)
	if reads {
		t.line(r, opRead, of.variable)
	}
	if writes {
		t.line(r, opWrite, of.variable)
	}
	t.line(r, opRelease, of.lock)
}

// newPass writes a release with a new lock and a new variable.
func (t *translation) newPass(r *record, key passKey) passed {
	t.number++
	whole := objectKey{key.place, t.number, key.what}
	beside := objectKey{key.place, t.number, key.what | syncOf}
	of := pair{t.fresh(whole), t.fresh(beside)}
	t.section(r, of, false, true)
	return passed{thread: r.thread, lock: of.lock, variable: of.variable}
}

// release ends the releases before it, unless it is one of several that acquires come after.
func (t *translation) release(r *record, key passKey, merges bool) {
	kept := t.passes[key][:0]
	for _, one := range t.passes[key] {
		if merges && one.thread != r.thread {
			kept = append(kept, one)
		} else {
			t.forget(one.variable)
		}
	}
	t.passes[key] = append(kept, t.newPass(r, key))
}

func (t *translation) acquire(r *record, key passKey) {
	list := t.passes[key]
	for i := range list {
		t.comesAfter(r, &list[i])
	}
}

func (t *translation) comesAfter(r *record, one *passed) {
	if one.thread == r.thread || one.seen[r.thread] {
		return
	}
	if one.seen == nil {
		one.seen = map[uint32]bool{}
	}
	one.seen[r.thread] = true
	t.section(r, pair{one.lock, one.variable}, true, false)
}

func (t *translation) one(r *record, id int32, offset uint64) {
	at := place{id, offset}
	switch r.kind {
	case fork:
		t.line(r, opFork, int32(r.address))
	case read, write:
		if c := t.mem.parts[id]; c != nil {
			t.accessed(r, c, at)
		}
	case load, store, modify, failedModify:
		if t.mem.parts[id].has(offset) && !t.insideLock(r.pc) {
			reads, writes, _ := r.access()
			t.section(r, pair{t.object(atomicOf, at, 0), t.object(variableOf, at, 0)}, reads, writes)
		}
	case acquire:
		t.acquired(r, at)
	case release:
		t.released(r, at)
	case releaseMerge:
		t.release(r, passKey{passOf, at}, true)
	case releaseAcquire:
		t.acquire(r, passKey{passOf, at})
		t.release(r, passKey{passOf, at}, false)
	default:
		t.event(r, at)
	}
}

func (t *translation) event(r *record, at place) {
	switch {
	case r.kind >= lock && r.kind <= wrefused:
		t.locked(r, at)
	case r.kind >= wanted && r.kind <= wwanted:
		if one := (line{r.spot(), r.thread, t.object(lockOf, at, 0), opAcquire}); t.wants != nil {
			t.wants(one)
		}
	case r.kind >= fileReads && r.kind <= fileClosed:
		t.file(r, at)
	case r.kind == meets:
		t.met(r, at)
	case r.kind == buffer:
		t.buffered(r, at)
	case r.kind == channelRefuse:
		t.refusedAt(r, at)
	case r.kind == signaled:
		t.signals[at] = append(t.signals[at], signal{r.high, t.newPass(r, passKey{signalOf, at})})
	case r.kind == woken:
		t.woke(r, at)
	case r.kind == finalizer:
		t.finalize(r)
	}
}

// An access to more parts than this is cut short, if all such accesses together have more than MoreParts beyond it.
const (
	partsOfAnAccess = 64
	moreParts       = 131072
)

func (t *translation) accessed(r *record, c *cuts, at place) {
	n := 0
	c.parts(at.offset, r.size, func(start uint64) {
		if n++; n > partsOfAnAccess {
			if t.beyond++; t.beyond > moreParts {
				t.facts["cut_short"]++
				return
			}
		}
		t.line(r, r.kind-read, t.object(variableOf, place{at.block, start}, 0))
	})
}

// A wait of a condition comes after the signal that ended it.
func (t *translation) woke(r *record, at place) {
	list := t.signals[at]
	for i := range list {
		if r.high < list[i].upto {
			t.comesAfter(r, &list[i].pass)
			return
		}
	}
}

// Finalizers come after all that was done before them, as the object must have no more use.
func (t *translation) finalize(r *record) {
	key := passKey{what: finalOf}
	for _, one := range sorted(t.spoke) {
		if one != r.thread {
			other := *r
			other.thread = one
			t.release(&other, key, true)
		}
	}
	t.acquire(r, key)
	t.spoke = map[uint32]bool{}
}
