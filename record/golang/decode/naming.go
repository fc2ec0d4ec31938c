package main

import (
	"debug/dwarf"
	"fmt"
	"hash/crc32"
	"strings"
)

const (
	// The longest name of a variable or lock that is written.
	mostName = 250
	// The longest name of a function in a location.
	mostFunction = 200
)

// The names of blocks and of their parts.
type naming struct {
	*places
	mem     *memory
	nodes   func(uint32) stackNode
	names   map[int32]string
	counted map[string]int
}

// A text without what would end a field of the trace.
func plain(text string) string {
	return strings.Map(func(r rune) rune {
		if r < 32 || r == 127 {
			return '?'
		}
		if r == '|' {
			return '!'
		}
		return r
	}, text)
}

// A text that is not longer than `most`; the end of a longer one is its checksum.
func fitting(text string, most int) string {
	if len(text) <= most {
		return text
	}
	return strings.ToValidUTF8(text[:most-9], "") + fmt.Sprintf("~%08x", crc32.ChecksumIEEE([]byte(text)))
}

// What the calls that allocated a block say: the first line outside of the runtime, and the runtime's function there.
type origin struct {
	file, function, inside string
	line                   int
	kind                   uint64 // the type at run time
}

func (n *naming) origin(b *block) (from origin) {
	for at := b.chain; at != 0; at = n.nodes(at).parent {
		one := n.nodes(at)
		if one.isType {
			from.kind = one.pc
			continue
		}
		for _, f := range n.at(one.pc - 1) {
			if !ofRuntime(f.function) {
				from.file, from.function, from.line = f.file, f.function, f.line
				return
			}
			from.inside = f.function
		}
	}
	return
}

func (o *origin) word() string {
	switch {
	case o.inside == "runtime.stackalloc" || o.inside == "runtime.malg" || o.file == "":
		return "stack"
	case strings.HasPrefix(o.inside, "runtime.makechan"):
		return "chan"
	case strings.HasPrefix(o.inside, "runtime.makemap"):
		return "map"
	}
	return "heap"
}

// The name of a block: a variable of the program, or the place of its allocation and how many were before it.
func (n *naming) whole(id int32) string {
	if name := n.names[id]; name != "" {
		return name
	}
	b := n.mem.block(id)
	switch {
	case b.symbol >= 0:
		n.names[id] = plain(n.symbols[b.symbol].Name)
		return n.names[id]
	case id < 0:
		n.names[id] = fmt.Sprintf("memory:%x", b.start)
		return n.names[id]
	}
	from := n.origin(b)
	place, name := "?", ""
	if from.file != "" {
		place = fmt.Sprintf("%s:%d", n.short(from.file), from.line)
	}
	word := from.word()
	moved := n.words.moved[placeOf(from.function, from.line)]
	if word == "heap" && moved != "" && from.inside == "runtime.newobject" {
		name = moved + "@" + place
	} else {
		name = word + ":" + place
		if t := n.typeOf(from.kind); t != nil && word == "heap" {
			name += " " + typeName(t)
		}
	}
	name = fitting(plain(name), mostName)
	n.counted[name]++
	n.names[id] = fmt.Sprintf("%s#%d", name, n.counted[name])
	return n.names[id]
}

func typeName(t dwarf.Type) string {
	if s, ok := t.(*dwarf.StructType); ok {
		return s.StructName
	}
	return t.Common().Name
}

func (n *naming) typeOf(address uint64) dwarf.Type {
	at, there := n.words.offsets[address]
	return n.words.typed(at, there && address != 0)
}

// The name of a part of a block.
func (n *naming) part(id int32, offset uint64) string {
	b, name := n.mem.block(id), n.whole(id)
	if b.symbol >= 0 {
		at, there := n.words.globals[b.start-n.bias]
		if t := n.words.typed(at, there); t != nil {
			return name + member(t, int64(offset))
		}
	} else if id >= 0 && !strings.HasPrefix(name, "stack:") {
		from := n.origin(b)
		if t := n.typeOf(from.kind); t != nil && t.Size() > 0 {
			return name + inBlock(t, b.size, offset)
		}
	}
	return name + plus(int64(offset))
}

func plus(offset int64) string {
	if offset == 0 {
		return ""
	}
	return fmt.Sprintf("+%d", offset)
}

// The path of a part in a block of one or more values of a type.
func inBlock(t dwarf.Type, whole, offset uint64) string {
	size := uint64(t.Size())
	if whole == 16 && size < 16 && offset >= 16-size { // Go puts a small value without pointers at the end
		offset -= 16 - size
	}
	index := ""
	if whole >= 2*size && offset >= size {
		index = fmt.Sprintf("[%d]", offset/size)
	}
	return index + member(t, int64(offset%size))
}

func underlying(t dwarf.Type) dwarf.Type {
	for {
		named, ok := t.(*dwarf.TypedefType)
		if !ok {
			return t
		}
		t = named.Type
	}
}

// Members of these types are not named: a mutex has the name of its variable.
var whole = map[string]bool{"sync.Mutex": true, "sync.RWMutex": true, "sync.WaitGroup": true, "runtime.hmap": true,
	"runtime.hchan": true, "string": true}

// The member at an offset, as `.next.key` or `[3].x`; what has no name is `+8`.
func member(t dwarf.Type, offset int64) string {
	switch t := underlying(t).(type) {
	case *dwarf.StructType:
		if whole[t.StructName] || strings.HasPrefix(t.StructName, "sync/atomic.") || strings.HasPrefix(t.StructName, "[]") {
			break
		}
		for _, f := range t.Field {
			if f.ByteOffset <= offset && offset < f.ByteOffset+f.Type.Size() {
				return "." + f.Name + member(f.Type, offset-f.ByteOffset)
			}
		}
	case *dwarf.ArrayType:
		if size := t.Type.Size(); size > 0 {
			return fmt.Sprintf("[%d]", offset/size) + member(t.Type, offset%size)
		}
	}
	return plus(offset)
}

// The text for functions of the runtime that a location names.
var insides = map[string]string{
	"chansend": "send", "chansend1": "send", "chanrecv": "receive", "chanrecv1": "receive", "chanrecv2": "receive",
	"closechan": "close", "selectgo": "select", "selectnbsend": "send", "selectnbrecv": "receive",
}

func insideWord(function string) string {
	name := strings.TrimPrefix(function, "runtime.")
	if word := insides[name]; word != "" {
		return word
	}
	if i := strings.Index(name, "_"); i > 0 {
		return name[:i]
	}
	return name
}

// A location in the making: the line, the function, and its callers.
type locating struct {
	*naming
	most   int
	parts  []string
	inside string
	count  int
	full   bool
}

func (l *locating) add(pc uint64) {
	for _, f := range l.at(pc) {
		if l.full || f.function == "runtime.main" || l.count > 0 && l.count >= l.most {
			l.full = true
			return
		}
		if ofRuntime(f.function) || f.file == "<autogenerated>" || l.count == 0 && ofSync(f.function) {
			if l.count == 0 && ofRuntime(f.function) {
				l.inside = insideWord(f.function)
			}
			continue
		}
		place := fmt.Sprintf("%s:%d", plain(l.short(f.file)), f.line)
		name := fitting(strings.ReplaceAll(plain(f.function), " ", "_"), mostFunction)
		switch {
		case l.count > 0:
			l.parts = append(l.parts, name+" "+place)
		case l.most > 0 && l.inside != "":
			l.parts = append(l.parts, place, l.inside+" in "+name)
		case l.most > 0:
			l.parts = append(l.parts, place, name)
		case l.inside == "try":
			l.parts = append(l.parts, place, l.inside)
		default:
			l.parts = append(l.parts, place)
		}
		l.count++
	}
}

// A location: the place of an access, and the calls that led to it.
func (n *naming) location(at spot, most int) string {
	l := &locating{naming: n, most: most}
	if at.tried {
		l.inside = "try"
	}
	if at.pc != 0 {
		l.add(at.pc - n.bias - 1)
	}
	for stack := at.stack; stack != 0 && !l.full; stack = n.nodes(stack).parent {
		l.add(n.nodes(stack).pc - 1)
	}
	if len(l.parts) == 0 {
		return l.inside
	}
	return strings.Join(l.parts, " < ")
}

// Whether the line of an access is in one of the files.
func (n *naming) isIn(pc uint64, stack uint32, files []string) bool {
	in := func(pc uint64) (bool, bool) {
		for _, f := range n.at(pc) {
			if ofRuntime(f.function) || f.file == "<autogenerated>" || ofSync(f.function) {
				continue
			}
			for _, one := range files {
				if f.file == one || strings.HasSuffix(f.file, "/"+strings.TrimPrefix(one, "./")) {
					return true, true
				}
			}
			return false, true
		}
		return false, false
	}
	answer, known := false, false
	if pc != 0 {
		answer, known = in(pc - n.bias - 1)
	}
	for ; !known && stack != 0; stack = n.nodes(stack).parent {
		answer, known = in(n.nodes(stack).pc - 1)
	}
	return answer
}
