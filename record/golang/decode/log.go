package main

import (
	"encoding/binary"
	"fmt"
	"os"
	"syscall"
)

// Kinds of records, in the order of recorder.c.
const (
	read = iota + 1
	write
	fork
	end
	acquire
	release
	releaseMerge
	releaseAcquire
	load
	store
	modify
	failedModify
	malloc
	node
	finalizer
	change // another goroutine goes on
	more   // the size of the record before, or its place
)

// Set in the kind of an access inside of race.Disable.
const quietKind = 64

// Kinds of events of the changed sources of Go, in the order of overlay.py.
const (
	lock = iota + 32
	unlock
	refused
	rlock
	runlock
	rrefused
	wlock
	wunlock
	wrefused
	wanted
	rwanted
	wwanted
	tried // a try took a lock
	rtried
	wtried
)
const (
	meets = iota + 48
	buffer
	channelRefuse
	signaled
	woken
	fileReads
	fileRead
	fileWrites
	fileWritten
	fileKept
	fileClosed
)

// Who started a goroutine.
const (
	byProgram = iota
	byRuntime
	byTimer
	byFinalizers
)

const (
	logMagic    = 0x32304f4745434152
	headSize    = 4096
	tailSize    = 1 << 20
	recordSize  = 16
	addressMask = 1<<48 - 1
	// The recorder ended the log for want of room on the disk.
	causeDisk = 2
)

// A record of the log. What `high` is depends on the kind: a place of code, a size, a number.
type record struct {
	thread  uint32
	context uint32 // the thread; of a timer that of all times that it fires
	kind    uint8
	quiet   bool // an access inside of race.Disable, which is no tick of the clock
	tried   bool // a try took a lock: the kind is that of a lock
	small   uint8
	stack   uint32
	high    uint32
	address uint64
	size    uint64
	pc      uint64
}

type stackNode struct {
	pc     uint64
	parent uint32
	isType bool
}

// A log that was written: the head's numbers, and the records of the body and the tail.
type goLog struct {
	body, tail                                                               []byte
	lost, cause, base, others, clashes, switches, yields, forced, most, dead uint64
	nodes                                                                    []stackNode
	hasNodes                                                                 bool
	bias                                                                     uint64 // of the program's addresses
}

func openLog(name string) (*goLog, error) {
	file, err := os.Open(name)
	if err != nil {
		return nil, err
	}
	defer file.Close()
	about, err := file.Stat()
	if err != nil {
		return nil, err
	}
	size := about.Size()
	if size < headSize+tailSize {
		return nil, fmt.Errorf("the log is cut")
	}
	all, err := syscall.Mmap(int(file.Fd()), 0, int(size), syscall.PROT_READ, syscall.MAP_SHARED)
	if err != nil {
		return nil, err
	}
	word := func(k int) uint64 { return binary.LittleEndian.Uint64(all[8*k:]) }
	l := &goLog{lost: word(5), cause: word(6), base: word(7), others: word(8), clashes: word(9), switches: word(10),
		yields: word(11), most: word(13), forced: word(14), dead: word(16), nodes: make([]stackNode, 1)}
	flushed, appended := word(2), word(3)
	isWhole := appended >= flushed && appended-flushed <= tailSize && headSize+tailSize+flushed <= uint64(size)
	if word(0) != logMagic || !isWhole {
		return nil, fmt.Errorf("the log is damaged")
	}
	l.body = all[headSize+tailSize:][:flushed]
	l.tail = all[headSize:][:appended-flushed]
	return l, nil
}

// Calls a function with each record but those of the log's own form. The record is the same one each time.
func (l *goLog) each(work func(*record)) {
	r := &record{}
	waits := false // its size may follow
	for _, part := range [][]byte{l.body, l.tail} {
		for ; len(part) >= recordSize; part = part[recordSize:] {
			what, with := binary.LittleEndian.Uint64(part), binary.LittleEndian.Uint64(part[8:])
			kind := uint8(what >> 48)
			if kind == more && waits {
				r.size = what & addressMask
				if place := uint32(with); place != 0 {
					r.pc = l.placeOf(place)
				}
				continue
			}
			if waits {
				work(r)
				waits = false
			}
			switch kind {
			case node:
				l.addNode(what, uint32(with))
			case change:
				r.thread = uint32(what)
			default:
				r.take(what, with)
				if r.isPlace() && r.high != 0 {
					r.pc = l.placeOf(r.high)
				}
				waits = true
			}
		}
	}
	if waits {
		work(r)
	}
	l.hasNodes = true
}

func (l *goLog) addNode(what uint64, parent uint32) {
	if !l.hasNodes {
		pc := what & addressMask
		l.nodes = append(l.nodes, stackNode{pc - l.bias, parent, what>>56 != 0})
	}
}

// Places of code are kept as their distance from the recorder.
func (l *goLog) placeOf(distance uint32) uint64 { return l.base + uint64(int64(int32(distance))) }

// Whether `high` is a place of code.
func (r *record) isPlace() bool {
	return r.kind <= releaseAcquire && r.kind != end || r.kind >= load && r.kind <= failedModify ||
		r.kind >= lock && r.kind < meets
}

func (r *record) take(what, with uint64) {
	r.kind, r.small, r.address = uint8(what>>48)&^quietKind, uint8(what>>56), what&addressMask
	r.quiet = uint8(what>>48)&quietKind != 0
	r.stack, r.high = uint32(with), uint32(with>>32)
	r.size, r.pc = uint64(r.small), 0
	if r.tried = r.kind >= tried && r.kind <= wtried; r.tried {
		r.kind = lock + 3*(r.kind-tried)
	}
	if r.kind == malloc {
		r.size = uint64(r.high)
	}
}

func (r *record) spot() spot { return spot{r.pc, r.stack, r.tried} }

// What a record does with memory.
func (r *record) access() (reads, writes, atomic bool) {
	switch r.kind {
	case read:
		return true, false, false
	case write:
		return false, true, false
	case load, failedModify:
		return true, false, true
	case store:
		return false, true, true
	case modify:
		return true, true, true
	case lock, rlock, wlock: // a lock that is overwritten is a race
		return true, false, false
	}
	return
}
