package main

import (
	"fmt"
	"os"
	"runtime"
	"sort"
	"strings"
	"sync"
	"syscall"
	"time"
)

// raced races in two goroutines, and both are done.
func raced() {
	x := 0
	done := make(chan bool, 2)
	work := func() { x++; done <- true } // RACE raced
	go work()
	go work()
	<-done
	<-done
}

func exits() { raced(); os.Exit(3) }

func panicked() { raced(); panic("the end") }

func killed() {
	raced()
	syscall.Kill(os.Getpid(), syscall.SIGKILL)
	select {}
}

// A goroutine waits for itself.
func deadlock() {
	raced()
	var mu sync.Mutex
	mu.Lock() // HOLDS deadlock
	mu.Lock() // WAITS deadlock
}

// Two goroutines have a lock each and wait for that of the other, while the main one waits for both.
func abba() {
	raced()
	var a, b sync.Mutex
	var come, done sync.WaitGroup
	work := func(own, other *sync.Mutex) {
		own.Lock() // HOLDS abba
		come.Done()
		come.Wait()
		other.Lock() // WAITS abba
		done.Done()
	}
	come.Add(2)
	done.Add(2)
	go work(&a, &b)
	go work(&b, &a)
	done.Wait()
}

// A reader of each lock, and a writer that waits for it.
func abbaReaders() {
	raced()
	var a, b sync.RWMutex
	var come, done sync.WaitGroup
	work := func(own, other *sync.RWMutex) {
		own.RLock() // HOLDS abbaReaders
		come.Done()
		come.Wait()
		other.Lock() // WAITS abbaReaders
		done.Done()
	}
	come.Add(2)
	done.Add(2)
	go work(&a, &b)
	go work(&b, &a)
	done.Wait()
}

// All goroutines wait, and none for a lock.
func asleep() {
	raced()
	<-make(chan bool)
}

// The program goes on for ever.
func hangs() {
	raced()
	fmt.Println("stuck")
	for {
		time.Sleep(time.Hour)
	}
}

func alone() { fmt.Println("no goroutine") }

// Goroutines that live at once, more than a trace has threads.
func thousands() {
	var mu sync.Mutex
	var wg sync.WaitGroup
	n, start := 0, make(chan bool)
	for k := 0; k < 2000; k++ {
		wg.Add(1)
		go func() {
			defer wg.Done()
			<-start
			mu.Lock()
			n++
			mu.Unlock()
		}()
	}
	close(start)
	wg.Wait()
	fmt.Println(n)
}

// Goroutines whose end nobody waits for.
func unjoined() {
	var mu sync.Mutex
	n := 0
	for k := 0; k < 400; k++ {
		go func() {
			mu.Lock()
			n++
			mu.Unlock()
		}()
		runtime.Gosched()
	}
	for all := 0; all < 400; {
		runtime.Gosched()
		mu.Lock()
		all = n
		mu.Unlock()
	}
	fmt.Println(n)
}

// Four workers sort, format and count.
func works() {
	var wg sync.WaitGroup
	var mu sync.Mutex
	counts := map[string]int{}
	for w := 0; w < 4; w++ {
		wg.Add(1)
		go func(seed int) {
			defer wg.Done()
			for round := 0; round < 20; round++ {
				words := make([]string, 0, 500)
				for k := 0; k < 500; k++ {
					seed = seed*1103515245 + 12345
					words = append(words, fmt.Sprintf("word%d", seed>>16&255))
				}
				sort.Strings(words)
				text := strings.Join(words, " ")
				mine := map[string]int{}
				for _, one := range strings.Fields(text) {
					mine[one]++
				}
				mu.Lock()
				for one, n := range mine {
					counts[one] += n
				}
				mu.Unlock()
			}
		}(w + 1)
	}
	wg.Wait()
	fmt.Println(len(counts))
}
