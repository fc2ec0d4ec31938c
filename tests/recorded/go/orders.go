package main

import (
	"fmt"
	"os"
	"runtime"
	"sync"
)

// Goroutines that take locks in several orders. Lines with HOLDS and WAITS and one word are those of a deadlock, which
// the run itself need not come to; a program without such lines has none. ORDERS_AS in the environment makes a
// goroutine take another lock than in the recording.
var ordersAs = os.Getenv("ORDERS_AS")

type orders struct {
	a, b, c, gate, idle, mains sync.Mutex
	table, index               sync.RWMutex
	cond                       *sync.Cond
	shared                     int
	ready                      bool
	done                       sync.WaitGroup
}

func newOrders() *orders {
	o := &orders{}
	o.cond = sync.NewCond(&o.a)
	return o
}

// both runs two functions in goroutines, and waits for them.
func (o *orders) both(first, second func()) {
	o.done.Add(2)
	for _, work := range []func(){first, second} {
		go func(work func()) {
			defer o.done.Done()
			work()
		}(work)
	}
	o.done.Wait()
	fmt.Println(o.shared)
}

// nested takes two locks.
func (o *orders) nested(outer, inner sync.Locker) {
	outer.Lock()
	inner.Lock()
	o.shared++
	inner.Unlock()
	outer.Unlock()
}

func (o *orders) aFirst() {
	o.a.Lock() // HOLDS twoOrders
	o.b.Lock() // WAITS twoOrders
	o.shared++
	o.b.Unlock()
	o.a.Unlock()
}

// The lock that bFirst takes: that of the recording, one that is free, or one that the main goroutine has.
func (o *orders) second() *sync.Mutex {
	switch ordersAs {
	case "idle":
		return &o.idle
	case "mains":
		return &o.mains
	}
	return &o.a
}

func (o *orders) bFirst() {
	second := o.second()
	o.b.Lock()    // HOLDS twoOrders
	second.Lock() // WAITS twoOrders
	o.shared++
	second.Unlock()
	o.b.Unlock()
}

func twoOrders() {
	o := newOrders()
	o.mains.Lock()
	o.both(o.aFirst, o.bFirst)
	o.mains.Unlock()
}

// A writer waits for a reader.
func writerWaits() {
	o := newOrders()
	o.both(func() {
		o.table.RLock() // HOLDS writerWaits
		o.a.Lock()      // WAITS writerWaits
		o.shared++
		o.a.Unlock()
		o.table.RUnlock()
	}, func() {
		o.a.Lock()     // HOLDS writerWaits
		o.table.Lock() // WAITS writerWaits
		o.shared++
		o.table.Unlock()
		o.a.Unlock()
	})
}

// A reader waits for a writer.
func readerWaits() {
	o := newOrders()
	o.both(func() {
		o.table.Lock() // HOLDS readerWaits
		o.a.Lock()     // WAITS readerWaits
		o.shared++
		o.a.Unlock()
		o.table.Unlock()
	}, func() {
		readers := o.table.RLocker()
		o.a.Lock()     // HOLDS readerWaits
		readers.Lock() // WAITS readerWaits
		o.ready = o.shared > 0
		readers.Unlock()
		o.a.Unlock()
	})
}

// A goroutine that comes back from the wait of a condition needs the mutex again.
func comesBack() {
	o := newOrders()
	waits := make(chan bool)
	o.both(func() {
		o.b.Lock() // HOLDS comesBack
		o.a.Lock()
		close(waits)
		for !o.ready {
			o.cond.Wait() // WAITS comesBack
		}
		o.a.Unlock()
		o.b.Unlock()
	}, func() {
		<-waits
		o.a.Lock()
		o.ready = true
		o.cond.Signal()
		o.a.Unlock()
		for k := 0; k < 20; k++ {
			runtime.Gosched()
		}
		o.a.Lock() // HOLDS comesBack
		o.b.Lock() // WAITS comesBack
		o.shared++
		o.b.Unlock()
		o.a.Unlock()
	})
}

// Three goroutines in a circle, of which one is the main one.
func circle() {
	o := newOrders()
	o.done.Add(2)
	go func() {
		defer o.done.Done()
		o.a.Lock() // HOLDS circle
		o.b.Lock() // WAITS circle
		o.shared++
		o.b.Unlock()
		o.a.Unlock()
	}()
	go func() {
		defer o.done.Done()
		o.b.Lock() // HOLDS circle
		o.c.Lock() // WAITS circle
		o.shared++
		o.c.Unlock()
		o.b.Unlock()
	}()
	o.c.Lock() // HOLDS circle
	o.a.Lock() // WAITS circle
	o.shared++
	o.a.Unlock()
	o.c.Unlock()
	o.done.Wait()
}

// Both goroutines hold a third lock.
func gated() {
	o := newOrders()
	work := func(outer, inner *sync.Mutex) func() {
		return func() {
			o.gate.Lock()
			o.nested(outer, inner)
			o.gate.Unlock()
		}
	}
	o.both(work(&o.a, &o.b), work(&o.b, &o.a))
}

// A channel orders the two.
func oneAfterTheOther() {
	o := newOrders()
	done := make(chan bool)
	o.both(func() {
		o.nested(&o.a, &o.b)
		close(done)
	}, func() {
		<-done
		o.nested(&o.b, &o.a)
	})
}

// Readers do not wait for each other.
func onlyReaders() {
	o := newOrders()
	work := func(outer, inner *sync.RWMutex) func() {
		return func() {
			outer.RLock()
			inner.RLock()
			inner.RUnlock()
			outer.RUnlock()
		}
	}
	o.both(work(&o.table, &o.index), work(&o.index, &o.table))
}

// A try waits for nobody.
func onlyTries() {
	o := newOrders()
	o.both(func() {
		o.a.Lock()
		if o.b.TryLock() { // TRIES
			o.b.Unlock()
		}
		if o.table.TryLock() { // TRIES
			o.table.Unlock()
		}
		if o.table.TryRLock() { // TRIES
			o.table.RUnlock()
		}
		o.a.Unlock()
	}, func() {
		o.nested(&o.b, &o.a)
		o.nested(&o.table, &o.a)
	})
}
