package main

import (
	"context"
	"fmt"
	"io"
	"os"
	"os/signal"
	"runtime"
	"sync"
	"sync/atomic"
	"syscall"
	"time"
)

// both runs two functions at the same time, and waits for them.
func both(a, b func()) {
	var wg sync.WaitGroup
	wg.Add(2)
	go func() { defer wg.Done(); a() }()
	go func() { defer wg.Done(); b() }()
	wg.Wait()
}

func mutex() {
	var mu sync.Mutex
	n := 0
	add := func() {
		for k := 0; k < 20; k++ {
			mu.Lock()
			n++
			mu.Unlock()
		}
	}
	both(add, add)
	fmt.Println(n)
}

func rwmutex() {
	var mu sync.RWMutex
	n := 0
	both(func() {
		for k := 0; k < 10; k++ {
			mu.Lock()
			n++
			mu.Unlock()
		}
	}, func() {
		for k := 0; k < 10; k++ {
			mu.RLock()
			fmt.Sprint(n)
			mu.RUnlock()
		}
	})
	n++
}

func waitgroup() {
	parts := make([]int, 8)
	var wg sync.WaitGroup
	for k := range parts {
		wg.Add(1)
		go func(k int) {
			parts[k] = k
			wg.Done()
		}(k)
	}
	wg.Wait()
	fmt.Println(parts)
}

var (
	first sync.Once
	table map[int]int
)

func once() {
	get := func() {
		first.Do(func() { table = map[int]int{1: 2, 2: 3} })
		fmt.Sprint(table[1])
	}
	both(get, get)
	get()
}

func atomics() {
	var ready int32
	var n atomic.Int64
	var box atomic.Value
	data := 0
	both(func() {
		data = 7
		n.Add(1)
		box.Store([]int{1})
		atomic.StoreInt32(&ready, 1)
	}, func() {
		for atomic.LoadInt32(&ready) == 0 {
		}
		fmt.Sprint(data, n.Load(), box.Load())
		data = 8
	})
}

func cond() {
	var mu sync.Mutex
	c := sync.NewCond(&mu)
	var queue []*item
	x := 0
	both(func() {
		for k := 0; k < 10; k++ {
			one := &item{k}
			mu.Lock()
			queue = append(queue, one)
			mu.Unlock()
			c.Signal()
		}
		x = 1
		mu.Lock()
		queue = append(queue, nil)
		c.Broadcast()
		mu.Unlock()
	}, func() {
		for {
			mu.Lock()
			for len(queue) == 0 {
				c.Wait()
			}
			one := queue[0]
			queue = queue[1:]
			mu.Unlock()
			if one == nil {
				break
			}
			one.n++
		}
		x = 2
	})
	fmt.Sprint(x)
}

func pool() {
	p := sync.Pool{New: func() any { return &item{} }}
	use := func() {
		for k := 0; k < 20; k++ {
			one := p.Get().(*item)
			one.n++
			p.Put(one)
		}
	}
	both(use, use)
}

func trylock() {
	var mu sync.Mutex
	n := 0
	add := func() {
		for k := 0; k < 10; {
			if mu.TryLock() {
				n++
				mu.Unlock()
				k++
			}
		}
	}
	both(add, add)
}

// One goroutine locks, another one unlocks.
func handed() {
	var mu sync.Mutex
	n := 0
	mu.Lock()
	n++
	go func() {
		n++
		mu.Unlock()
	}()
	mu.Lock()
	n++
	mu.Unlock()
}

func unbuffered() {
	c := make(chan *item)
	n := 0
	both(func() {
		n = 1
		c <- &item{1}
		one := <-c
		one.n++
		n = 3
	}, func() {
		one := <-c
		one.n++
		n = 2
		c <- one
	})
	fmt.Sprint(n)
}

func closed() {
	c := make(chan bool)
	n := 0
	go func() {
		n = 1
		close(c)
	}()
	both(func() { <-c; fmt.Sprint(n) }, func() { <-c; fmt.Sprint(n) })
	n = 2
}

// Workers take what several senders sent, through a buffer.
func pipeline() {
	in, out := make(chan *item, 3), make(chan *item, 3)
	var senders, workers sync.WaitGroup
	for k := 0; k < 3; k++ {
		senders.Add(1)
		workers.Add(1)
		go func(k int) {
			defer senders.Done()
			for j := 0; j < 4; j++ {
				in <- &item{k}
			}
		}(k)
		go func() {
			defer workers.Done()
			for one := range in {
				one.n++
				out <- one
			}
		}()
	}
	go func() { senders.Wait(); close(in); workers.Wait(); close(out) }()
	sum := 0
	for one := range out {
		one.n++
		sum += one.n
	}
	fmt.Println(sum)
}

func selected() {
	ctx, cancel := context.WithTimeout(context.Background(), time.Second)
	values, n := make(chan int), 0
	go func() {
		for k := 0; ; k++ {
			select {
			case values <- k:
				n = k
			case <-ctx.Done():
				n++
				close(values)
				return
			}
		}
	}()
	for v := range values {
		if v == 5 {
			cancel()
		}
	}
	n++
}

// What one writes into a pipe another one reads, and the end of it too.
func files() {
	r, w, err := os.Pipe()
	if err != nil {
		panic(err)
	}
	n, m := 0, 0
	both(func() {
		n = 1
		w.Write([]byte("x"))
		m = 1
		w.Close()
	}, func() {
		one := make([]byte, 1)
		r.Read(one)
		n = 2
		io.ReadAll(r)
		m = 2
	})
	r.Close()
	fmt.Sprint(n, m)
}

// Loops that wait without a call that blocks.
func spins() {
	var lock uint32
	var flag atomic.Bool
	c := make(chan int, 1)
	n := 0
	add := func() {
		for k := 0; k < 5; k++ {
			for !atomic.CompareAndSwapUint32(&lock, 0, 1) {
			}
			n++
			atomic.StoreUint32(&lock, 0)
		}
	}
	both(add, add)
	both(func() {
		n++
		flag.Store(true)
		for {
			select {
			case <-c:
				n++
				return
			default:
			}
		}
	}, func() {
		for !flag.Load() {
		}
		n++
		c <- 1
	})
}

func signals() {
	c := make(chan os.Signal, 1)
	signal.Notify(c, syscall.SIGUSR1)
	syscall.Kill(os.Getpid(), syscall.SIGUSR1)
	<-c
	signal.Stop(c)
	n := 0
	both(func() { runtime.Gosched() }, func() { n++ })
	n++
}

func ranges() {
	type pair struct{ a, b [4]int }
	var mu sync.Mutex
	var p pair
	both(func() {
		mu.Lock()
		p.a = [4]int{1, 2, 3, 4}
		mu.Unlock()
	}, func() {
		mu.Lock()
		q := p
		q.b[0]++
		p = q
		copy(p.a[1:], p.b[:])
		mu.Unlock()
	})
}

// A message that is looked for without waiting.
func polled() {
	c := make(chan *item, 2)
	both(func() {
		for k := 0; k < 5; k++ {
			one := &item{k}
			one.n++
			select {
			case c <- one:
			default:
				time.Sleep(time.Microsecond)
			}
		}
		close(c)
	}, func() {
		for {
			select {
			case one, more := <-c:
				if !more {
					return
				}
				one.n++
			default:
				runtime.Gosched()
			}
		}
	})
}

func syncmap() {
	var m sync.Map
	both(func() {
		for k := 0; k < 5; k++ {
			m.Store(k, &item{k})
		}
	}, func() {
		for k := 0; k < 5; {
			if one, there := m.LoadAndDelete(k); there {
				one.(*item).n++
				k++
			} else {
				runtime.Gosched()
			}
		}
	})
}

func ticker() {
	t := time.NewTicker(time.Millisecond)
	n := 0
	stop := time.After(20 * time.Millisecond)
	done := make(chan bool)
	go func() {
		<-t.C
		n++
		close(done)
	}()
	<-done
	n++
	<-stop
	t.Stop()
}
