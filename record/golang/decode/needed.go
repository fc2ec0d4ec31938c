package main

import "sort"

func sorted(set map[uint32]bool) []uint32 {
	list := make([]uint32, 0, len(set))
	for one := range set {
		list = append(list, one)
	}
	sort.Slice(list, func(i, j int) bool { return list[i] < list[j] })
	return list
}

// Which lines the trace needs: those of objects that two threads use, and forks of threads that have lines.
type needed struct {
	first []uint32 // of each object the first thread, plus 1
	many  []bool
	last  map[uint32]int // of each thread that has lines the number of the last one
	order []uint32       // these threads, as they were forked
	root  []uint32       // those of them that no fork made
}

func (n *needed) see(l line) {
	if l.op == opFork {
		return
	}
	for int(l.object) >= len(n.first) {
		n.first, n.many = append(n.first, 0), append(n.many, false)
	}
	if n.first[l.object] == 0 {
		n.first[l.object] = l.thread + 1
	} else if n.first[l.object] != l.thread+1 {
		n.many[l.object] = true
	}
}

func (n *needed) keeps(l line) bool {
	if l.op == opFork {
		_, busy := n.last[uint32(l.object)]
		return busy
	}
	return n.many[l.object]
}

type forked struct {
	number        int
	parent, child uint32
}

// needs makes two passes: which objects several threads use, and which threads have lines about such objects.
func (d *decoder) needs() *needed {
	n := &needed{last: map[uint32]int{}}
	nothing := func(int32) {}
	d.begin()
	t := d.translating(n.see, nothing)
	t.wants = n.see // so the lock is one of both
	d.pass(t.one)
	number, forks := 0, []forked(nil)
	d.begin()
	d.translate(func(l line) {
		number++
		if l.op == opFork {
			forks = append(forks, forked{number, l.thread, uint32(l.object)})
		} else if n.many[l.object] {
			n.last[l.thread] = number
			d.location(l.spot, d.frames) // so that files of one name are known
		}
	}, nothing)
	for k := len(forks) - 1; k >= 0; k-- {
		f := forks[k]
		if _, busy := n.last[f.child]; busy && n.last[f.parent] < f.number {
			n.last[f.parent] = f.number
		}
	}
	n.inOrder(forks)
	return n
}

// begin puts back what a translation counts, before each pass.
func (d *decoder) begin() {
	d.beyond = 0
	delete(d.facts, "cut_short")
}

// The main goroutine is the first thread; the others come in the order of their forks.
func (n *needed) inOrder(forks []forked) {
	n.order = []uint32{1}
	known := map[uint32]bool{1: true}
	for _, f := range forks {
		if _, busy := n.last[f.child]; busy && !known[f.child] {
			known[f.child] = true
			n.order = append(n.order, f.child)
		}
	}
	others := map[uint32]bool{}
	for one := range n.last {
		if !known[one] {
			others[one] = true
		}
	}
	n.root = sorted(others)
}
