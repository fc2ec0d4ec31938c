package main

type options struct {
	frames, most, threads int
	from                  int
	slots, lossy, killed  bool
	cause                 string // of records that the log lacks
	only                  []string
	records, events       int // descriptors of the files for a clock, or 0
}

// A decoder goes over the log several times, so its memory grows with blocks and locks, and not with the log.
type decoder struct {
	options
	*naming
	log       *goLog
	out       map[uint32]bool   // goroutines of the runtime
	timers    map[uint32]uint32 // timers, and the thread of the one that fires
	firings   uint32
	mutexes   map[place]*mutex
	streams   map[int32]*channel
	closed    map[place]bool // files
	finalizes bool
	facts     facts
	missing   []loss
	deadlock  []string
	beyond    int // parts of accesses that have many
	clock     *clock
}

// A place in memory, wherever the block is.
type place struct {
	block  int32
	offset uint64
}

// The place of an access in the code, the calls that led there, and whether a try took a lock.
type spot struct {
	pc    uint64
	stack uint32
	tried bool
}

// Threads of timers have numbers from here on: each time that one fires is a thread.
const firstFiring = 1 << 30

func newDecoder(log *goLog, p *places, given options) *decoder {
	d := &decoder{options: given, log: log, out: map[uint32]bool{0: true}, mutexes: map[place]*mutex{},
		streams: map[int32]*channel{}, closed: map[place]bool{}, facts: facts{}}
	d.naming = &naming{places: p, mem: newMemory(p), names: map[int32]string{}, counted: map[string]int{},
		nodes: func(k uint32) stackNode { return log.nodes[k] }}
	return d
}

// pass goes over the log: it calls a function with each record of the program's goroutines, and the block and offset
// of the record's address. The record is the same one each time.
func (d *decoder) pass(work func(r *record, id int32, offset uint64)) {
	d.mem.restart()
	d.timers, d.firings = map[uint32]uint32{}, firstFiring
	d.log.each(func(r *record) {
		if !d.isOfProgram(r) {
			return
		}
		thread := r.thread
		r.context, r.thread = thread, d.threadOf(r)
		if r.kind == fork || r.kind == finalizer {
			work(r, 0, 0)
		} else {
			id, offset := d.mem.find(r.address)
			work(r, id, offset)
		}
		r.thread = thread
	})
}

func (d *decoder) isOfProgram(r *record) bool {
	switch r.kind {
	case malloc:
		d.mem.allocate(r)
		return false
	case end:
		return false
	case fork:
		child := uint32(r.address)
		switch r.small {
		case byTimer:
			d.timers[child] = child
			if d.clock != nil {
				d.clock.timer(child)
			}
			return false
		case byRuntime:
			d.out[child] = child != 1 // the main goroutine
			return false
		}
	}
	return !d.out[r.thread]
}

// A timer has no goroutine: what it calls is a thread for each time that it fires.
func (d *decoder) threadOf(r *record) uint32 {
	now, is := d.timers[r.thread]
	if !is {
		return r.thread
	}
	if r.kind == acquire {
		d.firings++
		now = d.firings
		d.timers[r.thread] = now
	}
	return now
}

// survey finds the blocks that several threads use, and what locks, channels and files are like.
func (d *decoder) survey() {
	state := newLockState()
	d.pass(func(r *record, id int32, offset uint64) {
		if reads, writes, atomic := r.access(); (reads || writes) && !(atomic && d.insideLock(r.pc)) {
			d.mem.block(id).see(r.thread, writes)
		}
		switch {
		case r.kind >= lock && r.kind <= wrefused:
			d.lookAtLock(r, place{id, offset}, state)
		case r.kind >= meets && r.kind <= channelRefuse:
			d.lookAtChannel(r, id)
		case r.kind == fileClosed:
			d.closed[place{id, offset}] = true
		case r.kind == finalizer:
			d.finalizes = true
		}
	})
}

// cut finds the parts of the blocks that several threads use.
func (d *decoder) cut() {
	chosen := map[spot]bool{}
	d.pass(func(r *record, id int32, offset uint64) {
		reads, writes, atomic := r.access()
		if !reads && !writes || atomic && d.insideLock(r.pc) {
			return
		}
		if b := d.mem.block(id); !b.many || !b.written {
			return
		}
		c := d.mem.parts[id]
		if c == nil {
			c = &cuts{spans: map[span]*spanned{}}
			d.mem.parts[id] = c
		}
		c.see(offset, sizeOf(r), r.thread, writes, d.isChosen(r, chosen))
	})
	for _, c := range d.mem.parts {
		d.facts["not_chosen"] += c.cut()
	}
}

func sizeOf(r *record) uint64 {
	if r.kind == read || r.kind == write {
		return r.size
	}
	return 1
}

func (d *decoder) isChosen(r *record, known map[spot]bool) bool {
	if len(d.only) == 0 {
		return true
	}
	key := r.spot()
	answer, there := known[key]
	if !there {
		answer = d.isIn(r.pc, r.stack, d.only)
		known[key] = answer
	}
	return answer
}
