package main

import (
	"bufio"
	"debug/elf"
	"debug/gosym"
	"fmt"
	"os"
	"path"
	"sort"
	"strconv"
	"strings"
)

// What the file of the program says: functions and inlined calls, lines, variables, types. Its addresses are those of
// the file; `bias` is how far the program was moved.
type places struct {
	lines   *gosym.Table
	symbols []elf.Symbol
	words   *words
	bias    uint64
	frames  map[uint64][]frame
	bases   map[string]map[string]bool // the files of each name
	inside  map[uint64]bool            // whether a place is in the code of a lock
}

type frame struct {
	function, file string
	line           int
}

func loadProgram(name string) (*places, error) {
	file, err := elf.Open(name)
	if err != nil {
		return nil, err
	}
	p := &places{frames: map[uint64][]frame{}, bases: map[string]map[string]bool{}, inside: map[uint64]bool{}}
	symbols, _ := file.Symbols()
	types := uint64(0)
	for _, s := range symbols {
		if s.Name == "runtime.types" { // where the types begin
			types = s.Value
		}
		if s.Name == "__tsan_init" {
			p.bias = s.Value
		}
		if elf.ST_TYPE(s.Info) == elf.STT_OBJECT && s.Size > 0 {
			p.symbols = append(p.symbols, s)
		}
	}
	sort.Slice(p.symbols, func(i, j int) bool { return p.symbols[i].Value < p.symbols[j].Value })
	if p.lines, err = lineTable(file); err != nil {
		return nil, fmt.Errorf("%s: %v", name, err)
	}
	p.words = &words{}
	if info, err := file.DWARF(); err == nil {
		p.words = readWords(info, types)
	}
	return p, nil
}

func lineTable(file *elf.File) (*gosym.Table, error) {
	section, text := file.Section(".gopclntab"), file.Section(".text")
	if section == nil {
		section = file.Section(".data.rel.ro.gopclntab")
	}
	if section == nil || text == nil {
		return nil, fmt.Errorf("it is no program of Go")
	}
	data, err := section.Data()
	if err != nil {
		return nil, err
	}
	return gosym.NewTable(nil, gosym.NewLineTable(data, text.Addr))
}

// The calls at a place of the program, from the inside to the outside.
func (p *places) at(pc uint64) []frame {
	if known, there := p.frames[pc]; there {
		return known
	}
	var list []frame
	file, line, f := p.lines.PCToLine(pc)
	if f == nil {
		list = []frame{{fmt.Sprintf("0x%x", pc), "", 0}}
		p.frames[pc] = list
		return list
	}
	for _, one := range p.words.inlinedAt(pc) {
		list = append(list, frame{one.name, file, line})
		file, line = one.file, one.line
	}
	list = append(list, frame{f.Name, file, line})
	for _, one := range list {
		base := path.Base(one.file)
		if p.bases[base] == nil {
			p.bases[base] = map[string]bool{}
		}
		p.bases[base][one.file] = true
	}
	p.frames[pc] = list
	return list
}

// The name of a file, with as much of its path as no other file of its name has.
func (p *places) short(file string) string {
	base := path.Base(file)
	if len(p.bases[base]) < 2 {
		return base
	}
	for short, rest := base, path.Dir(file); ; rest = path.Dir(rest) {
		alone := true
		for other := range p.bases[base] {
			alone = alone && (other == file || !strings.HasSuffix(other, "/"+short))
		}
		if alone || rest == "/" || rest == "." {
			return short
		}
		short = path.Base(rest) + "/" + short
	}
}

func (p *places) symbol(address uint64) (int, bool) {
	i := sort.Search(len(p.symbols), func(i int) bool { return p.symbols[i].Value > address }) - 1
	if i >= 0 && address < p.symbols[i].Value+p.symbols[i].Size {
		return i, true
	}
	return 0, false
}

// Whether a function belongs to the runtime, and is left out of locations.
func ofRuntime(name string) bool {
	return strings.HasPrefix(name, "runtime.") && name != "runtime.main"
}

// Whether a function belongs to the packages of locks: the location is that of its caller.
func ofSync(name string) bool {
	return startsWith(name, "sync.(", "sync/atomic.", "internal/race.", "internal/sync.", "internal/poll.(*fdMutex)")
}

func startsWith(name string, starts ...string) bool {
	for _, start := range starts {
		if strings.HasPrefix(name, start) {
			return true
		}
	}
	return false
}

// Whether an atomic operation is of a lock, which has separate records.
func (p *places) insideLock(pc uint64) bool {
	if known, there := p.inside[pc]; there {
		return known
	}
	answer := startsWith(p.at(pc - p.bias - 1)[0].function,
		"sync.(*Mutex)", "sync.(*copyChecker)", "internal/sync.(*Mutex)", "internal/poll.(*fdMutex)")
	p.inside[pc] = answer
	return answer
}

// answerPlaces answers for each address of standard input, which comes after a call, with the function and the line of
// each frame, the innermost first, and an empty line. `base` is the recorder's address in the run.
func answerPlaces(program, base string) error {
	p, err := loadProgram(program)
	if err != nil {
		return err
	}
	at, err := strconv.ParseUint(base, 16, 64)
	if err != nil {
		return err
	}
	p.bias = at - p.bias
	in := bufio.NewScanner(os.Stdin)
	for in.Scan() {
		address, err := strconv.ParseUint(in.Text(), 16, 64)
		if err != nil {
			return err
		}
		for _, f := range p.at(address - p.bias - 1) {
			if !ofRuntime(f.function) && f.line > 0 && f.file != "<autogenerated>" {
				fmt.Printf("%s %s:%d\n", strings.ReplaceAll(plain(f.function), " ", "_"), plain(p.short(f.file)), f.line)
			}
		}
		fmt.Println()
	}
	return in.Err()
}
