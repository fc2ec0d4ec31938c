package main

import (
	"debug/dwarf"
	"encoding/binary"
	"fmt"
	"sort"
	"strings"
)

// The attribute by which Go's compiler names a type's address at run time, from the symbol runtime.types on.
const attrRuntimeType = dwarf.Attr(0x2904)

// What the debug information of a program says.
type words struct {
	info      *dwarf.Data
	functions []function
	offsets   map[uint64]dwarf.Offset // of types, by their address at run time
	globals   map[uint64]dwarf.Offset // of the types of variables, by their address
	moved     map[string]string       // a variable that was moved to the heap, by the place of its declaration
}

type function struct {
	low, high uint64
	name      string
	inlined   []inlinedCall
}

type inlinedCall struct {
	low, high uint64
	depth     int
	name      string
	file      string
	line      int
}

// A reading of the debug information, entry by entry.
type reading struct {
	*words
	types   uint64
	names   map[dwarf.Offset]string
	files   []*dwarf.LineFile
	depth   int
	current int   // the function, or -1
	inside  []int // the depths of open inlined calls
}

func readWords(info *dwarf.Data, types uint64) *words {
	w := &words{info: info, moved: map[string]string{}}
	w.offsets, w.globals = map[uint64]dwarf.Offset{}, map[uint64]dwarf.Offset{}
	read := &reading{words: w, types: types, names: map[dwarf.Offset]string{}, current: -1}
	r := info.Reader()
	for {
		e, err := r.Next()
		if err != nil || e == nil {
			break
		}
		read.entry(e)
	}
	sort.Slice(w.functions, func(i, j int) bool { return w.functions[i].low < w.functions[j].low })
	return w
}

func (r *reading) entry(e *dwarf.Entry) {
	if e.Tag == 0 {
		r.depth--
		if n := len(r.inside) - 1; n >= 0 && r.inside[n] == r.depth {
			r.inside = r.inside[:n]
		}
		return
	}
	switch e.Tag {
	case dwarf.TagCompileUnit:
		r.files = nil
		if lines, err := r.info.LineReader(e); err == nil && lines != nil {
			r.files = lines.Files()
		}
		r.depth, r.current = 0, -1
	case dwarf.TagSubprogram:
		r.function(e)
	case dwarf.TagInlinedSubroutine:
		r.inlinedCall(e)
	case dwarf.TagVariable, dwarf.TagFormalParameter:
		r.variable(e)
	case dwarf.TagStructType, dwarf.TagTypedef, dwarf.TagPointerType, dwarf.TagBaseType, dwarf.TagArrayType:
		if address, ok := e.Val(attrRuntimeType).(uint64); ok && address != 0 {
			r.offsets[r.types+address] = e.Offset
		}
	}
	if e.Children {
		r.depth++
	}
}

func (r *reading) function(e *dwarf.Entry) {
	r.current = -1
	low, ok := e.Val(dwarf.AttrLowpc).(uint64)
	if !ok {
		return
	}
	f := function{low: low}
	switch high := e.Val(dwarf.AttrHighpc).(type) {
	case uint64:
		f.high = high
	case int64:
		f.high = low + uint64(high)
	}
	f.name, _ = e.Val(dwarf.AttrName).(string)
	if origin, ok := e.Val(dwarf.AttrAbstractOrigin).(dwarf.Offset); ok && f.name == "" {
		f.name = r.name(origin)
	}
	r.functions = append(r.functions, f)
	r.current = len(r.functions) - 1
}

func (r *reading) inlinedCall(e *dwarf.Entry) {
	if r.current < 0 {
		return
	}
	ranges, _ := r.info.Ranges(e)
	origin, _ := e.Val(dwarf.AttrAbstractOrigin).(dwarf.Offset)
	line, _ := e.Val(dwarf.AttrCallLine).(int64)
	f := &r.functions[r.current]
	for _, part := range ranges {
		f.inlined = append(f.inlined, inlinedCall{part[0], part[1], len(r.inside), r.name(origin),
			r.file(e.Val(dwarf.AttrCallFile)), int(line)})
	}
	if e.Children {
		r.inside = append(r.inside, r.depth)
	}
}

// A variable that was moved to the heap is `&name` in the frame.
func (r *reading) variable(e *dwarf.Entry) {
	name, _ := e.Val(dwarf.AttrName).(string)
	where, _ := e.Val(dwarf.AttrLocation).([]byte)
	kind, ok := e.Val(dwarf.AttrType).(dwarf.Offset)
	if ok && r.depth == 1 && len(where) == 9 && where[0] == 3 {
		r.globals[binary.LittleEndian.Uint64(where[1:])] = kind
	}
	line, ok := e.Val(dwarf.AttrDeclLine).(int64)
	if r.current >= 0 && ok && strings.HasPrefix(name, "&") {
		r.moved[placeOf(r.functions[r.current].name, int(line))] = name[1:]
	}
}

func placeOf(function string, line int) string { return fmt.Sprintf("%s:%d", function, line) }

func (r *reading) name(at dwarf.Offset) string {
	name, there := r.names[at]
	if !there {
		other := r.info.Reader()
		other.Seek(at)
		if e, err := other.Next(); err == nil && e != nil {
			name, _ = e.Val(dwarf.AttrName).(string)
		}
		r.names[at] = name
	}
	return name
}

func (r *reading) file(number interface{}) string {
	if n, ok := number.(int64); ok && int(n) < len(r.files) && r.files[n] != nil {
		return r.files[n].Name
	}
	return ""
}

// The inlined calls at a place, the innermost first.
func (w *words) inlinedAt(pc uint64) []inlinedCall {
	i := sort.Search(len(w.functions), func(i int) bool { return w.functions[i].low > pc }) - 1
	if i < 0 || pc >= w.functions[i].high {
		return nil
	}
	var open []inlinedCall
	for _, one := range w.functions[i].inlined {
		if one.low <= pc && pc < one.high {
			open = append(open, one)
		}
	}
	sort.SliceStable(open, func(a, b int) bool { return open[a].depth > open[b].depth })
	return open
}

func (w *words) typed(at dwarf.Offset, there bool) dwarf.Type {
	if !there || w.info == nil {
		return nil
	}
	t, err := w.info.Type(at)
	if err != nil {
		return nil
	}
	return t
}
