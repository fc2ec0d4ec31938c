package main

// A trace has at most 256 threads. A goroutine whose lines have all come lends its number to one that starts later:
// its lines then come before those of the other in every schedule. Nothing is lost if the fork comes after them
// anyway, by the forks and passes of the trace. Else an order would be added that the program does not force: that is
// done, and counted, if the trace has to have so few threads; if not, the number is a new one.
type lender struct {
	*needed
	limit    int
	lossy    bool                // whether an order may be added
	number   map[uint32]int32    // of each goroutine
	turn     map[uint32]uint32   // how many goroutines had the number before
	turns    []uint32            // of each number
	finished []int32             // numbers that may be lent
	seen     map[uint32][]uint32 // of each number how many of its goroutines had ended before this one went on
	carried  map[int32][]uint32  // the same, of what was written to a variable of a pass
	lent     map[uint32]bool     // goroutines whose start is a pass, for the number is not new
	line     int
	free, by int // how many were lent, without and with an added order
	short    bool
}

func (n *needed) numbers(limit int, lossy bool) *lender {
	return &lender{needed: n, limit: limit, lossy: lossy, number: map[uint32]int32{}, turn: map[uint32]uint32{},
		seen: map[uint32][]uint32{}, carried: map[int32][]uint32{}, lent: map[uint32]bool{}}
}

// simple gives each goroutine a number; it says whether there were enough.
func (l *lender) simple() bool {
	all := append(append([]uint32(nil), l.order...), l.root...)
	if l.limit != 0 && len(all) > l.limit {
		return false
	}
	for _, one := range all {
		l.number[one] = int32(len(l.number))
	}
	return true
}

// see is called with each line of a pass.
func (l *lender) see(one line, isSync bool) {
	l.line++
	if !l.keeps(one) {
		return
	}
	if len(l.number) == 0 {
		l.take(1, nil)
	}
	if _, there := l.number[one.thread]; !there { // no fork of it is in the trace
		l.take(one.thread, nil)
	}
	switch {
	case one.op == opFork:
		child := uint32(one.object)
		l.seen[child] = l.seen[one.thread]
		l.take(child, l.seen[child])
	case isSync && one.op == opRead:
		l.seen[one.thread] = joined(l.seen[one.thread], l.carried[one.object])
	case isSync && one.op == opWrite:
		now := l.seen[one.thread]
		if l.last[one.thread] <= l.line+1 { // only the end of this section follows
			now = l.withEnd(now, one.thread)
		}
		l.carried[one.object] = now
	}
	if l.last[one.thread] == l.line {
		l.finished = append(l.finished, l.number[one.thread])
	}
}

func (l *lender) forget(variable int32) { delete(l.carried, variable) }

// joined returns what both have seen; the two stay as they are.
func joined(a, b []uint32) []uint32 {
	if len(a) < len(b) {
		a, b = b, a
	}
	var both []uint32
	for k := range b {
		if b[k] > a[k] {
			if both == nil {
				both = append([]uint32(nil), a...)
			}
			both[k] = b[k]
		}
	}
	if both == nil {
		return a
	}
	return both
}

func (l *lender) withEnd(seen []uint32, thread uint32) []uint32 {
	own := make([]uint32, l.number[thread]+1)
	own[l.number[thread]] = l.turn[thread] + 1
	return joined(own, seen)
}

func (l *lender) isSeen(number int32, seen []uint32) bool {
	return int(number) < len(seen) && seen[number] >= l.turns[number]
}

// At most this many finished goroutines are looked at for one that may lend its number.
const mostLenders = 4096

// pick returns the place of a number that may be lent, or -1; a free one adds no order.
func (l *lender) pick(seen []uint32) (place int, free bool) {
	for i := 0; i < len(l.finished) && i < mostLenders; i++ {
		if l.isSeen(l.finished[i], seen) {
			return i, true
		}
	}
	if l.lossy && len(l.finished) > 0 {
		return 0, false
	}
	return -1, false
}

func (l *lender) take(one uint32, seen []uint32) {
	place, free := -1, false
	if len(l.turns) >= l.limit {
		place, free = l.pick(seen)
		l.short = l.short || place < 0
	}
	if place < 0 {
		l.number[one] = int32(len(l.turns))
		l.turns = append(l.turns, 1)
		return
	}
	if free {
		l.free++
	} else {
		l.by++
	}
	number := l.finished[place]
	l.finished = append(l.finished[:place], l.finished[place+1:]...)
	l.number[one], l.turn[one], l.lent[one] = number, l.turns[number], true
	l.turns[number]++
}
