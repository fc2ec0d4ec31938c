package main

import (
	"fmt"
	"runtime"
	"sync"
	"sync/atomic"
	"time"
)

var hits int

func counter() {
	var wg sync.WaitGroup
	for k := 0; k < 2; k++ {
		wg.Add(1)
		go func() {
			defer wg.Done()
			hits++ // RACE counter
		}()
	}
	wg.Wait()
	fmt.Println(hits)
}

func captured() {
	var wg sync.WaitGroup
	i := 0
	for ; i < 3; i++ { // RACE captured
		wg.Add(1)
		go func() {
			defer wg.Done()
			fmt.Sprint(i) // RACE captured
		}()
	}
	wg.Wait()
}

func mapwrite() {
	m := map[int]int{}
	done := make(chan bool)
	go func() {
		m[1] = 2 // RACE mapwrite
		done <- true
	}()
	m[2] = 3 // RACE mapwrite
	<-done
}

type item struct{ n int }

func timer() {
	a := &item{1}
	done := make(chan bool)
	time.AfterFunc(time.Millisecond, func() {
		a.n++
		done <- true
	})
	<-done
	a.n++
	b := &item{}
	time.AfterFunc(time.Millisecond, func() {
		b.n++ // RACE timer
		done <- true
	})
	time.Sleep(5 * time.Millisecond)
	fmt.Println(b.n) // RACE timer
	<-done
}

// The receive orders the write before the send, and not the one after it.
func chanrace() {
	x := 0
	c := make(chan int, 1)
	go func() {
		x = 1
		c <- x
		x = 2 // RACE chanrace
	}()
	<-c
	fmt.Println(x) // RACE chanrace
}

type config struct {
	name string
	size int
}

var current *config

func publish() {
	go func() {
		c := &config{"fast", 8}
		c.size = 9
		current = c // RACE publish
	}()
	for current == nil { // RACE publish
		runtime.Gosched()
	}
	time.Sleep(time.Millisecond)
}

type account struct {
	mu      sync.Mutex
	balance int
}

var audit int

func (a *account) deposit(n int) {
	audit++ // RACE hidden
	a.mu.Lock()
	a.balance += n
	a.mu.Unlock()
}

func (a *account) close() {
	a.mu.Lock()
	a.mu.Unlock()
	audit++ // RACE hidden
}

// The order of the mutex hides the race from a detector that knows one run.
func hidden() {
	a := &account{}
	var wg sync.WaitGroup
	wg.Add(2)
	go func() { defer wg.Done(); a.deposit(5) }()
	time.Sleep(10 * time.Millisecond)
	go func() { defer wg.Done(); a.close() }()
	wg.Wait()
	fmt.Println(a.balance, audit)
}

var audited int

// A goroutine waits for a lock in this run. In an order that shows the race it does not.
func crowded() {
	var mu sync.Mutex
	var wg sync.WaitGroup
	n, has := 0, make(chan bool)
	wg.Add(2)
	go func() {
		defer wg.Done()
		mu.Lock()
		close(has)
		for k := 0; k < 20; k++ {
			n++
			runtime.Gosched()
		}
		mu.Unlock()
		audited++ // RACE crowded
	}()
	go func() {
		defer wg.Done()
		<-has
		mu.Lock()
		n++
		mu.Unlock()
		audited++ // RACE crowded
	}()
	wg.Wait()
	fmt.Println(n)
}

var last int

// One sends after its write, the other before: only the order of the two messages orders the writes.
func chanfifo() {
	results, wrote := make(chan int, 4), make(chan bool)
	go func() {
		last = 1 // RACE chanfifo
		results <- 1
	}()
	for len(results) == 0 { // len orders nothing in the trace
		runtime.Gosched()
	}
	go func() {
		results <- 2
		last = 2 // RACE chanfifo
		close(wrote)
	}()
	<-wrote
	fmt.Println(<-results + <-results)
}

// More goroutines than a trace has threads, though few live at once.
func many() {
	var mu sync.Mutex
	sum, bad := 0, 0
	for round := 0; round < 3; round++ {
		var wg sync.WaitGroup
		for i := 0; i < 100; i++ {
			wg.Add(1)
			go func(i, round int) {
				defer wg.Done()
				if round == 2 && i >= 7 && i <= 8 {
					bad++ // RACE many
				}
				mu.Lock()
				sum += i
				mu.Unlock()
			}(i, round)
		}
		wg.Wait()
	}
	fmt.Println(sum, bad)
}

// Readers exclude no readers.
func readers() {
	var mu sync.RWMutex
	var wg sync.WaitGroup
	seen := 0
	for k := 0; k < 2; k++ {
		wg.Add(1)
		go func() {
			defer wg.Done()
			mu.RLock()
			seen++ // RACE readers
			mu.RUnlock()
		}()
	}
	wg.Wait()
	mu.Lock()
	seen++
	mu.Unlock()
}

func risky(n int) {
	defer func() { recover() }()
	deep(n)
}

func deep(n int) {
	if n == 0 {
		panic("deep")
	}
	deep(n - 1)
}

// A panic that is recovered leaves no calls in the locations after it.
func panics() {
	done := make(chan bool)
	x := 0
	go func() {
		for k := 0; k < 5; k++ {
			risky(3)
		}
		x++ // RACE panics
		done <- true
	}()
	x++ // RACE panics
	<-done
}

// Parts of one array, of which two share one element each.
func sliced() {
	var wg sync.WaitGroup
	all := make([]int, 8)
	for k := 0; k < 3; k++ {
		wg.Add(1)
		go func(part []int) {
			defer wg.Done()
			for i := range part {
				part[i] = 1 // RACE sliced
			}
		}(all[2*k : 3*k+2+(2-k)/2])
	}
	wg.Wait()
}

// The signal orders what is before it, and nothing that is after it.
func condless() {
	var mu sync.Mutex
	c := sync.NewCond(&mu)
	x, y := 0, 0
	waits := make(chan bool)
	go func() {
		mu.Lock()
		waits <- true
		c.Wait()
		mu.Unlock()
		x++
		y++ // RACE condless
		waits <- true
	}()
	<-waits
	x++
	mu.Lock()
	c.Signal()
	mu.Unlock()
	y++ // RACE condless
	<-waits
}

type resource struct{ n int }

// A finalizer comes after the uses of its object, and beside what comes later.
func finalized() {
	var begun atomic.Bool
	total := 0
	done := make(chan bool)
	func() {
		r := &resource{}
		runtime.SetFinalizer(r, func(r *resource) {
			r.n++
			begun.Store(true)
			total++ // RACE finalized
			done <- true
		})
		r.n++
	}()
	runtime.GC()
	for !begun.Load() {
		runtime.Gosched()
	}
	total++ // RACE finalized
	<-done
}
