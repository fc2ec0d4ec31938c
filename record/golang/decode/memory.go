package main

// A block of memory, or a variable of the program: what is accessed is a block and an offset in it.
type block struct {
	start, size uint64
	chain       uint32 // the calls that allocated it, with its type as the innermost
	first       uint32 // the first thread that accessed it, plus 1
	symbol      int32  // -1, or a variable of the program
	many        bool
	written     bool
}

// Pages of 8192 bytes: a block that fills one, or the blocks of its parts of 8 bytes.
type page struct {
	whole int32
	parts *[1024]int32
}

const pageBits = 13

// The memory of the program as it is at one record of the log. Each pass over the log begins with an empty one; the
// blocks have the same numbers in each pass.
type memory struct {
	places  *places
	blocks  []block // those that were allocated, in their order
	globals []block // variables, which have negative numbers
	known   map[int64]int32
	parts   map[int32]*cuts // of blocks that several threads use
	pages   map[uint64]*page
	last    *page
	lastAt  uint64
	next    int
}

func newMemory(p *places) *memory {
	return &memory{places: p, known: map[int64]int32{}, parts: map[int32]*cuts{}, pages: map[uint64]*page{}}
}

// Begins a pass.
func (m *memory) restart() {
	m.pages, m.next, m.last = map[uint64]*page{}, 0, nil
}

func (m *memory) block(id int32) *block {
	if id < 0 {
		return &m.globals[-id-1]
	}
	return &m.blocks[id]
}

func (m *memory) page(at uint64) *page {
	if m.last != nil && m.lastAt == at {
		return m.last
	}
	p := m.pages[at]
	if p != nil {
		m.last, m.lastAt = p, at
	}
	return p
}

// allocate replaces what was there by a block. A large block fills whole pages, as Go's allocator gives it.
func (m *memory) allocate(r *record) {
	id := int32(m.next)
	m.next++
	if m.next > len(m.blocks) {
		m.blocks = append(m.blocks, block{start: r.address, size: r.size, chain: r.stack, symbol: -1})
	}
	stop := r.address + r.size
	for at := r.address >> pageBits; at<<pageBits < stop; at++ {
		p := m.page(at)
		if p == nil {
			p = &page{whole: -1}
			m.pages[at] = p
		}
		start, last := at<<pageBits, (at+1)<<pageBits
		if r.address <= start && last <= stop {
			p.whole, p.parts = id, nil
			continue
		}
		if p.parts == nil {
			p.parts = new([1024]int32)
			for k := range p.parts {
				p.parts[k] = p.whole
			}
		}
		for a := max64(start, r.address&^7); a < last && a < stop; a += 8 {
			p.parts[a>>3&1023] = id
		}
	}
}

func max64(a, b uint64) uint64 {
	if a > b {
		return a
	}
	return b
}

// find returns the block that has an address now, and the offset in it.
func (m *memory) find(address uint64) (int32, uint64) {
	if p := m.page(address >> pageBits); p != nil {
		id := p.whole
		if p.parts != nil {
			id = p.parts[address>>3&1023]
		}
		if id >= 0 {
			return id, address - m.blocks[id].start
		}
	}
	return m.global(address)
}

func (m *memory) global(address uint64) (int32, uint64) {
	i, there := m.places.symbol(address - m.places.bias)
	key, start, size := -int64(address>>12)-1, address&^4095, uint64(4096)
	if there {
		s := &m.places.symbols[i]
		key, start, size = int64(i), s.Value+m.places.bias, s.Size
	} else {
		i = -1
	}
	id, known := m.known[key]
	if !known {
		m.globals = append(m.globals, block{start: start, size: size, symbol: int32(i)})
		id = -int32(len(m.globals))
		m.known[key] = id
	}
	return id, address - start
}

// see notes that a thread accesses a block.
func (b *block) see(thread uint32, writes bool) {
	if b.first == 0 {
		b.first = thread + 1
	} else if b.first != thread+1 {
		b.many = true
	}
	b.written = b.written || writes
}
