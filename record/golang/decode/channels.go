package main

import "strings"

// What is known of a channel after the survey.
type channel struct {
	senders, receivers map[uint32]bool
	slots              map[uint32]int // uses of each slot, in the survey
	refused, buffered  bool
	many               bool // it has more than one slot
}

func (d *decoder) lookAtChannel(r *record, id int32) {
	c := d.streams[id]
	if c == nil {
		c = &channel{senders: map[uint32]bool{}, receivers: map[uint32]bool{}, slots: map[uint32]int{}}
		d.streams[id] = c
	}
	switch r.kind {
	case channelRefuse:
		c.refused = true
	case buffer:
		c.buffered = true
		c.many = c.many || r.high > 0
		if c.slots[r.high]++; c.slots[r.high]&1 == 1 {
			c.senders[r.thread] = true
		} else {
			c.receivers[r.thread] = true
		}
	}
}

// Two goroutines meet at a channel without a buffer, or at one whose buffer does not matter: a pass each way.
func (t *translation) met(r *record, at place) {
	key := passKey{meetingOf, at}
	other := *r
	other.thread = r.high
	if strings.Contains(t.location(spot{stack: uint32(r.size)}, 0), ":") {
		other.pc, other.stack = 0, uint32(r.size)
	}
	if now, is := t.timers[r.high]; is {
		other.thread = now
	}
	if t.out[other.thread] {
		return
	}
	t.release(&other, key, false)
	t.acquire(r, key)
	t.release(r, key, false)
	t.acquire(&other, key)
}

// A slot is a pass from a send to its receive, and on to the send that uses it again. With several senders or
// receivers a chain through all sends (receives) keeps the order of the messages, unless --slots asks for Go's model.
func (t *translation) buffered(r *record, at place) {
	c := t.streams[at.block]
	key := place{at.block, uint64(r.high)}
	t.slotUses[key]++
	sends := t.slotUses[key]&1 == 1
	switch {
	case t.slots || !c.refused && !c.many:
	case c.refused:
		t.section(r, t.pair(stateOf, at, 0), true, true)
	case sends && len(c.senders) > 1:
		t.section(r, t.pair(sendsOf, at, 0), true, true)
	case !sends && len(c.receivers) > 1:
		t.section(r, t.pair(receivesOf, at, 0), true, true)
	}
	slot := passKey{slotOf, key}
	t.acquire(r, slot)
	t.release(r, slot, false)
}

// What a try that was refused depends on: what was sent, received and closed before.
func (t *translation) refusedAt(r *record, at place) {
	if !t.slots {
		t.section(r, t.pair(stateOf, at, 0), true, false)
	}
}

// A receive from a closed channel comes after the close, and after all was received.
func (t *translation) acquired(r *record, at place) {
	if c := t.streams[at.block]; c != nil && !t.slots {
		if c.refused && c.buffered {
			t.section(r, t.pair(stateOf, at, 0), true, false)
		} else if len(c.receivers) > 1 && c.many {
			t.section(r, t.pair(receivesOf, at, 0), true, false)
		}
	}
	t.acquire(r, passKey{passOf, at})
}

func (t *translation) released(r *record, at place) {
	if c := t.streams[at.block]; c != nil && c.refused && !t.slots {
		t.section(r, t.pair(stateOf, at, 0), c.buffered, true)
	}
	t.release(r, passKey{passOf, at}, false)
}

// Channels with a buffer and several senders, of which the chain may order too much.
func (d *decoder) countSenders() {
	for _, c := range d.streams {
		if c.many && len(c.senders) > 1 {
			d.facts["many_senders"]++
		}
	}
}
