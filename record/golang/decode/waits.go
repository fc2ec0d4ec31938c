package main

import (
	"fmt"
	"strings"
)

// A request of a lock that is the last record of its thread.
type want struct {
	spot
	at    place
	reads bool
}

type hold struct {
	spot
	depth int
	reads bool
}

// Which locks threads wait for, and who has which lock.
type waits struct {
	wanted map[uint32]want
	holds  map[place]map[uint32]*hold
}

func newWaits() *waits { return &waits{map[uint32]want{}, map[place]map[uint32]*hold{}} }

func (w *waits) see(r *record, at place) {
	if r.kind >= wanted && r.kind <= wwanted {
		w.wanted[r.thread] = want{r.spot(), at, r.kind == rwanted}
		return
	}
	delete(w.wanted, r.thread)
	switch r.kind {
	case lock, wlock, rlock:
		w.take(r, at)
	case unlock, wunlock, runlock:
		w.give(r, at)
	}
}

func (w *waits) take(r *record, at place) {
	if w.holds[at] == nil {
		w.holds[at] = map[uint32]*hold{}
	}
	if w.holds[at][r.thread] == nil {
		w.holds[at][r.thread] = &hold{r.spot(), 0, r.kind == rlock}
	}
	w.holds[at][r.thread].depth++
}

// give ends a hold; another goroutine than the holder may do that.
func (w *waits) give(r *record, at place) {
	of := r.thread
	for one := range w.holds[at] {
		if w.holds[at][of] == nil && (len(w.holds[at]) == 1 || !w.holds[at][one].reads) {
			of = one
		}
	}
	if h := w.holds[at][of]; h != nil {
		if h.depth--; h.depth == 0 {
			delete(w.holds[at], of)
		}
	}
}

// next returns the least stuck thread that has what a thread waits for. A reader waits for no reader.
func (w *waits) next(thread uint32, stuck map[uint32]bool) (uint32, bool) {
	mine := w.wanted[thread]
	for _, one := range sorted(stuck) {
		if h := w.holds[mine.at][one]; h != nil && !(mine.reads && h.reads) {
			return one, true
		}
	}
	return 0, false
}

// circle returns the threads of a circle, from its least one on, each before the one that has its lock.
func (w *waits) circle() (found []uint32) {
	stuck := map[uint32]bool{}
	for one := range w.wanted {
		stuck[one] = true
	}
	for again := true; again; {
		again = false
		for one := range stuck {
			if _, waits := w.next(one, stuck); !waits {
				delete(stuck, one)
				again = true
			}
		}
	}
	if len(stuck) == 0 {
		return
	}
	now := sorted(stuck)[0]
	for range stuck {
		now, _ = w.next(now, stuck)
	}
	for one := now; len(found) == 0 || one != now; {
		found = append(found, one)
		one, _ = w.next(one, stuck)
	}
	least := 0
	for k, one := range found {
		if one < found[least] {
			least = k
		}
	}
	return append(found[least:], found[:least]...)
}

// circle returns the lines of a deadlock: THREAD|PLACE|LOCK|HOLDER|SINCE each.
func (p *printer) circle() (lines []string) {
	if p.waits == nil {
		return
	}
	threads := p.waits.circle()
	for k, one := range threads {
		w, holder := p.waits.wanted[one], threads[(k+1)%len(threads)]
		since := p.waits.holds[w.at][holder].spot
		lock := p.label(p.object(lockOf, w.at, 0))
		of := strings.TrimPrefix(p.threadName(one), "T")
		has := strings.TrimPrefix(p.threadName(holder), "T")
		lines = append(lines, fmt.Sprintf("%s|%s|%s|%s|%s", of, p.placeOf(w.spot), lock, has, p.placeOf(since)))
	}
	return
}

// placeOf is the first place of a location.
func (p *printer) placeOf(at spot) string { return strings.SplitN(p.location(at, 1), " ", 2)[0] }
