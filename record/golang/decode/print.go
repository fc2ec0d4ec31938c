package main

import (
	"bufio"
	"fmt"
	"io"
	"os"
	"sort"
	"strconv"
	"strings"
)

type facts map[string]int

// An acquire at the beginning of a trace that leaves out its events before.
type heldLine struct {
	event int
	text  string
}

// A printer writes the lines that are needed.
type printer struct {
	*translation
	*lender
	out     *bufio.Writer
	texts   map[spot]string
	labels  []string
	begun   map[uint32]bool
	held    map[string][]heldLine
	isOpen  bool
	written int
	bytes   int
	waits   *waits // if all goroutines wait at the end
}

func (d *decoder) print(to io.Writer, n *needed) error {
	l := n.numbers(d.threads, d.lossy)
	if !l.simple() {
		var t *translation
		d.begin()
		t = d.translating(func(one line) {
			isSync := one.op != opFork && t.keys[one.object].what&syncOf != 0
			l.see(one, isSync)
		}, l.forget)
		d.pass(t.one)
	}
	p := &printer{lender: l, out: bufio.NewWriterSize(to, 1<<20), texts: map[spot]string{}, begun: map[uint32]bool{},
		held: map[string][]heldLine{}, isOpen: d.from == 0}
	d.begin()
	p.translation = d.translating(p.line1, func(int32) {})
	fmt.Fprintln(p.out, "recording|begin(RECORDED)|")
	d.pass(p.printing(l))
	d.facts["written"], d.facts["bytes"] = p.written, p.bytes
	d.facts["lent_free"], d.facts["lent"] = l.free, l.by
	if d.threads == 0 {
		d.facts["threads"] = len(l.number)
	}
	if l.short {
		d.facts["short"] = 1
	}
	p.deadlock = p.circle()
	p.mark()
	if err := p.out.Flush(); err != nil || d.clock == nil {
		return err
	}
	if d.clock.next > mostNumbers {
		d.facts["no_clock"] = 1
	}
	return d.clock.end(os.NewFile(uintptr(d.events), "events"))
}

// printing returns what is done with each record: it is written to the clock, if there is one, and its lines are.
func (p *printer) printing(l *lender) func(*record, int32, uint64) {
	work := p.translation.one
	if p.log.dead != 0 {
		p.waits = newWaits()
		work = func(r *record, id int32, offset uint64) {
			p.waits.see(r, place{id, offset})
			p.translation.one(r, id, offset)
		}
	}
	if p.records == 0 {
		return work
	}
	caller := func(stack uint32) uint64 { return p.nodes(stack).pc + p.bias }
	p.clock = newClock(os.NewFile(uintptr(p.records), "records"), l.number, caller)
	return func(r *record, id int32, offset uint64) {
		p.clock.tick(r)
		work(r, id, offset)
	}
}

func (p *printer) threadName(one uint32) string { return "T" + strconv.Itoa(int(p.lender.number[one])) }

func (p *printer) line1(l line) {
	if !p.keeps(l) {
		return
	}
	text, there := p.texts[l.spot]
	if !there {
		text = p.location(l.spot, p.frames)
		p.texts[l.spot] = text
	}
	if p.lent[l.thread] && !p.begun[l.thread] {
		p.begun[l.thread] = true
		p.start(l.thread, l.thread, "r", text)
	}
	if l.op != opFork {
		p.write(l.thread, opWords[l.op], p.label(l.object), text)
	} else if child := uint32(l.object); p.lent[child] {
		p.start(l.thread, child, "w", text)
	} else {
		p.write(l.thread, "fork", p.threadName(child), text)
	}
}

// The start of a goroutine whose number is not new: a pass, and no fork.
func (p *printer) start(thread, goroutine uint32, word, text string) {
	lock := fmt.Sprintf("start:%s#%d", p.threadName(goroutine), p.turn[goroutine])
	p.write(thread, "acq", lock, text)
	p.write(thread, word, "sync:"+lock, text)
	p.write(thread, "rel", lock, text)
}

// write writes an event, if the options want it.
func (p *printer) write(thread uint32, word, object, location string) {
	text := p.threadName(thread) + "|" + word + "(" + object + ")|" + location + "\n"
	switch {
	case !p.isOpen && p.facts["before"] < p.from:
		p.passBy(thread, word, object, text)
		return
	case !p.isOpen:
		p.open()
	}
	p.put(text)
}

func (p *printer) put(text string) {
	if p.written >= p.most {
		p.facts["left_out"]++
		return
	}
	p.written++
	if p.clock != nil {
		p.clock.event()
	}
	p.bytes += len(text)
	p.out.WriteString(text)
}

// passBy leaves out an event before the first one that is wanted.
func (p *printer) passBy(thread uint32, word, object, text string) {
	key := p.threadName(thread) + " " + object
	if word == "acq" {
		p.held[key] = append(p.held[key], heldLine{p.facts["before"], text})
	} else if list := p.held[key]; word == "rel" && len(list) > 0 {
		p.held[key] = list[:len(list)-1]
	}
	p.facts["before"]++
}

// open takes the locks that are held where the trace begins.
func (p *printer) open() {
	p.isOpen = true
	var all []heldLine
	for _, list := range p.held {
		all = append(all, list...)
	}
	sort.Slice(all, func(i, j int) bool { return all[i].event < all[j].event })
	for _, one := range all {
		p.put(one.text)
	}
}

// Why a trace is not whole: how much is missing, and the event from which on.
type loss struct {
	cause       string
	count, from int
}

// losses of a recording, in the order of the decoder for C.
func (p *printer) losses() (found []loss) {
	add := func(is bool, cause string, count uint64) {
		if is {
			found = append(found, loss{cause, int(count), p.written})
		}
	}
	for cause, name := range map[string]string{"FROM": "before", "ONLY": "not_chosen"} {
		if count := p.facts[name]; count > 0 {
			found = append(found, loss{cause, count, 0})
		}
	}
	sort.Slice(found, func(i, j int) bool { return found[i].cause < found[j].cause })
	log := p.log
	add(p.facts["left_out"] > 0, "MAX", uint64(p.facts["left_out"]))
	if lent := p.facts["lent"]; lent > 0 {
		found = append(found, loss{"THREADS", lent, 0})
	}
	add(log.lost > 0 && log.cause == causeDisk, "DISK", log.lost)
	add(log.lost > 0 && log.cause != causeDisk, p.cause, log.lost)
	add(p.facts["cut_short"] > 0, "PARTS", uint64(p.facts["cut_short"]))
	add(len(p.deadlock) > 0, "DEADLOCK", 0)
	add(p.killed, "KILLED", 0)
	add(len(p.lender.number) < 2, "ONE THREAD", 0)
	add(log.others > 0, "EXEC", 0)
	add(log.clashes > 0 || log.most > 0, "PROGRAM", log.clashes)
	return
}

// mark ends the trace with what is missing in it.
func (p *printer) mark() {
	p.missing = p.losses()
	if len(p.missing) == 0 {
		fmt.Fprintln(p.out, "recording|end(WHOLE)|")
		return
	}
	count, from, causes := 0, p.written, []string(nil)
	for _, one := range p.missing {
		count += one.count
		if one.from < from {
			from = one.from
		}
		causes = append(causes, one.cause)
	}
	fmt.Fprintf(p.out, "recording|end(LEFT OUT %d FROM %d: %s)|\n", count, from, strings.Join(causes, ", "))
}

func (p *printer) label(o int32) string {
	for int(o) >= len(p.labels) {
		p.labels = append(p.labels, "")
	}
	if p.labels[o] == "" {
		p.labels[o] = fitting(p.nameOf(p.keys[o]), mostName)
	}
	return p.labels[o]
}

func (p *printer) nameOf(k objectKey) string {
	what := k.what &^ syncOf
	name := ""
	switch what {
	case finalOf:
		name = "finalizers"
	case slotOf:
		name = before[what] + fmt.Sprintf("%s:%d", p.part(k.block, 0), k.offset)
	case readerOf:
		reader := uint32(k.number - 1)
		name = p.part(k.block, k.offset) + ":" + p.threadName(reader)
		if p.turn[reader] > 0 {
			name += fmt.Sprintf(".%d", p.turn[reader])
		}
	case fileOf:
		name = p.part(k.block, k.offset) + map[int64]string{1: ":reading", 2: ":writing"}[k.number]
	default:
		name = before[what] + p.part(k.block, k.offset)
	}
	if k.number > 0 && what != readerOf && what != fileOf {
		name += fmt.Sprintf("#%d", k.number)
	}
	if k.what&syncOf == 0 {
		return name
	}
	if what == heldOf {
		return name[len("atomic:"):]
	}
	return "sync:" + name
}
