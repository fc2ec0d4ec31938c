package main

import (
	"bufio"
	"encoding/binary"
	"os"
)

// The kinds of ../../runtime/format.h, by those of the log; all others are passes. ../follow.h has the same.
var formatKinds = map[uint8]uint8{read: 1, write: 2, fork: 5, load: 10, failedModify: 10, store: 11, modify: 12, lock: 3,
	unlock: 4, refused: 17, rlock: 18, runlock: 19, rrefused: 17, wlock: 14, wunlock: 4, wrefused: 17, meets: 21,
	channelRefuse: 17}

const (
	formatPass    = 13
	formatMeeting = 21
	formatFork    = 5
	formatLong    = 1 // the word before a record that is whole
	formatSize    = 56
	formatTry     = 2 // the order of a lock that a try took
	formatWords   = formatSize / 8
	mostNumbers   = 1 << 16
)

// A clock writes for record/follow: the records of the numbered goroutines, as ../../runtime/format.h has them, and for
// each event the number of its record. The clock of a goroutine is the number of its records; ../follow.h counts the
// same ones.
type clock struct {
	records *bufio.Writer
	count   uint64 // of words; a record has the number of its first one
	ticks   map[uint32]uint64
	number  map[uint32]uint32
	next    uint32
	of      []uint64            // of each event the number of its record
	last    map[uint32]uint64   // of each goroutine the number of its last record
	waiting map[uint32][]uint64 // events of records that are no tick: they are of the goroutine's next record
	current *record
	caller  func(stack uint32) uint64 // where a lock's function was called
}

func newClock(to *os.File, numbers map[uint32]int32, caller func(uint32) uint64) *clock {
	c := &clock{records: bufio.NewWriterSize(to, 1<<20), ticks: map[uint32]uint64{}, number: map[uint32]uint32{1: 0},
		last: map[uint32]uint64{}, waiting: map[uint32][]uint64{}, caller: caller}
	for _, one := range numbers {
		if c.next <= uint32(one) {
			c.next = uint32(one) + 1
		}
	}
	for one, number := range numbers {
		if one < firstFiring {
			c.number[one] = uint32(number)
		}
	}
	return c
}

// numberOf is the number of a goroutine in the clock; one that the trace does not have gets the next one.
func (c *clock) numberOf(context uint32) uint32 {
	number, there := c.number[context]
	if !there {
		number = c.next
		c.next++
		c.number[context] = number
	}
	return number
}

// timer gives a number to a timer, whose fork is its first record.
func (c *clock) timer(context uint32) {
	if c.ticks[context] == 0 {
		c.ticks[context] = 1
		number := c.numberOf(context)
		c.put(entry{kind: formatFork, at: uint64(number), number: number, tick: 1})
	}
}

// A record of the clock.
type entry struct {
	kind, order        uint8
	number             uint32
	at, pc, size, tick uint64
}

func (c *clock) put(one entry) {
	var r [formatSize]byte
	r[0] = formatLong
	binary.LittleEndian.PutUint64(r[8:], one.at)
	binary.LittleEndian.PutUint64(r[16:], one.pc)
	binary.LittleEndian.PutUint64(r[24:], one.tick<<16)
	binary.LittleEndian.PutUint32(r[40:], uint32(one.size))
	binary.LittleEndian.PutUint16(r[48:], uint16(one.number))
	r[50], r[51], r[52] = one.kind, 1, one.order
	c.records.Write(r[:])
	c.count += formatWords
}

// tick writes a record, and that of the other goroutine at a meeting.
func (c *clock) tick(r *record) {
	c.current = r
	if r.quiet || r.kind >= wanted && r.kind <= wwanted {
		return
	}
	kind, there := formatKinds[r.kind]
	if !there {
		kind = formatPass
	}
	at := r.address
	if r.kind == fork {
		at = uint64(c.numberOf(uint32(r.address)))
	}
	for _, event := range c.waiting[r.context] {
		c.of[event] = c.count
	}
	delete(c.waiting, r.context)
	c.ticks[r.context]++
	c.last[r.context] = c.count
	one := entry{kind: kind, at: at, pc: r.pc, size: r.size, number: c.numberOf(r.context), tick: c.ticks[r.context]}
	if r.kind >= lock && r.kind <= wrefused {
		one.pc = c.caller(r.stack)
	}
	if r.tried {
		one.order = formatTry
	}
	c.put(one)
	if r.kind == meets {
		c.ticks[r.high]++
		c.put(entry{kind: formatMeeting, at: r.address, number: c.numberOf(r.high), tick: c.ticks[r.high]})
	}
}

// event says that the current record has one more line.
func (c *clock) event() {
	if c.current.quiet {
		c.waiting[c.current.context] = append(c.waiting[c.current.context], uint64(len(c.of)))
	}
	c.of = append(c.of, c.last[c.current.context])
}

// end writes which record each event is of.
func (c *clock) end(to *os.File) error {
	out := bufio.NewWriterSize(to, 1<<20)
	var word [8]byte
	for _, number := range c.of {
		binary.LittleEndian.PutUint64(word[:], number)
		out.Write(word[:])
	}
	if err := out.Flush(); err != nil {
		return err
	}
	return c.records.Flush()
}
