package main

import "sort"

type span struct{ offset, size uint64 }

// How a span of a block is used.
type spanned struct {
	first                 uint32
	many, written, chosen bool
}

// The parts of a block that do not overlap: accesses that overlap in part are cut.
type cuts struct {
	spans  map[span]*spanned
	starts []uint64
	shared []bool
}

func (c *cuts) see(offset, size uint64, thread uint32, writes, chosen bool) {
	key := span{offset, size}
	s := c.spans[key]
	if s == nil {
		s = &spanned{first: thread + 1}
		c.spans[key] = s
	}
	s.many = s.many || s.first != thread+1
	s.written = s.written || writes
	s.chosen = s.chosen || chosen
}

// What is open at one place of a block: the spans that cover it, by what they do.
type open struct {
	threads               map[uint32]int
	many, written, chosen int
}

func (o *open) change(s *spanned, by int) {
	if o.threads[s.first] += by; o.threads[s.first] == 0 {
		delete(o.threads, s.first)
	}
	for _, one := range []struct {
		is    bool
		count *int
	}{{s.many, &o.many}, {s.written, &o.written}, {s.chosen, &o.chosen}} {
		if one.is {
			*one.count += by
		}
	}
}

// cut finds the parts, and which parts are shared: by two threads, and with a write. It returns the number of shared
// parts that no line of the chosen files accesses: these are left out.
func (c *cuts) cut() int {
	begins, ends := map[uint64][]*spanned{}, map[uint64][]*spanned{}
	for s, u := range c.spans {
		begins[s.offset] = append(begins[s.offset], u)
		ends[s.offset+s.size] = append(ends[s.offset+s.size], u)
	}
	for at := range begins {
		c.starts = append(c.starts, at)
	}
	for at := range ends {
		if begins[at] == nil {
			c.starts = append(c.starts, at)
		}
	}
	sort.Slice(c.starts, func(i, j int) bool { return c.starts[i] < c.starts[j] })
	now, left := &open{threads: map[uint32]int{}}, 0
	c.shared = make([]bool, len(c.starts))
	for i, at := range c.starts {
		for _, u := range ends[at] {
			now.change(u, -1)
		}
		for _, u := range begins[at] {
			now.change(u, 1)
		}
		if now.written > 0 && (now.many > 0 || len(now.threads) > 1) {
			c.shared[i] = now.chosen > 0
			if now.chosen == 0 {
				left++
			}
		}
	}
	c.spans = nil
	return left
}

func (c *cuts) part(offset uint64) int {
	return sort.Search(len(c.starts), func(i int) bool { return c.starts[i] >= offset })
}

// has says whether the part that begins at an offset is shared.
func (c *cuts) has(offset uint64) bool {
	if c == nil {
		return false
	}
	i := c.part(offset)
	return i < len(c.starts) && c.starts[i] == offset && c.shared[i]
}

// parts calls a function with the start of each shared part of a span.
func (c *cuts) parts(offset, size uint64, work func(uint64)) {
	for i := c.part(offset); i < len(c.starts) && c.starts[i] < offset+size; i++ {
		if c.shared[i] {
			work(c.starts[i])
		}
	}
}
