// decode writes the trace of a Go program from the log that recorder.c wrote: decode [OPTIONS] PROGRAM LOG.
package main

import (
	"flag"
	"fmt"
	"os"
	"sort"
)

type texts []string

func (t *texts) String() string         { return fmt.Sprint(*t) }
func (t *texts) Set(value string) error { *t = append(*t, value); return nil }

func given() (o options) {
	flag.IntVar(&o.frames, "frames", 8, "most calls in a location")
	flag.IntVar(&o.most, "max", 1<<20, "most events")
	flag.IntVar(&o.threads, "threads", 256, "most threads; 0 is no limit")
	flag.IntVar(&o.from, "from", 0, "the first event that is written")
	flag.BoolVar(&o.lossy, "lossy", false, "lend numbers of threads also if that adds an order")
	flag.BoolVar(&o.killed, "killed", false, "a signal ended the program")
	flag.StringVar(&o.cause, "cause", "ROOM", "why the log lacks records")
	flag.BoolVar(&o.slots, "slots", false, "order the messages of a channel by Go's memory model alone")
	flag.IntVar(&o.records, "records", 0, "a descriptor: the records for a clock are written there")
	flag.IntVar(&o.events, "events", 0, "a descriptor: the number of each event's record is written there")
	flag.Var((*texts)(&o.only), "only", "a file whose variables are written")
	flag.Parse()
	if flag.NArg() != 2 {
		fmt.Fprintln(os.Stderr, "usage: decode [OPTIONS] PROGRAM LOG")
		os.Exit(2)
	}
	return
}

func decode(o options) (*decoder, error) {
	log, err := openLog(flag.Arg(1))
	if err != nil {
		return nil, err
	}
	p, err := loadProgram(flag.Arg(0))
	if err != nil {
		return nil, err
	}
	p.bias = log.base - p.bias
	log.bias = p.bias
	d := newDecoder(log, p, o)
	d.survey()
	d.cut()
	d.countSenders()
	return d, d.print(os.Stdout, d.needs())
}

func main() {
	if len(os.Args) == 4 && os.Args[1] == "places" {
		if err := answerPlaces(os.Args[2], os.Args[3]); err != nil {
			fmt.Fprintln(os.Stderr, "record:", err)
			os.Exit(1)
		}
		return
	}
	d, err := decode(given())
	if err != nil {
		fmt.Fprintln(os.Stderr, "record:", err)
		os.Exit(1)
	}
	d.facts["lost"], d.facts["disk"] = int(d.log.lost), 0
	if d.log.cause == causeDisk {
		d.facts["disk"] = 1
	}
	for _, m := range d.mutexes {
		if m.foreign && !m.chain {
			d.facts["no_sections"]++
		}
	}
	d.facts["others"], d.facts["clashes"], d.facts["most_calls"] = int(d.log.others), int(d.log.clashes), int(d.log.most)
	d.facts["switches"], d.facts["forced"] = int(d.log.switches), int(d.log.forced)
	var names []string
	for name := range d.facts {
		names = append(names, name)
	}
	sort.Strings(names)
	for _, name := range names {
		fmt.Fprintln(os.Stderr, "fact", name, d.facts[name])
	}
	for _, one := range d.deadlock {
		fmt.Fprintln(os.Stderr, "deadlock", one)
	}
	for _, one := range d.missing {
		fmt.Fprintf(os.Stderr, "loss %s=%d\n", one.cause, one.count)
	}
}
