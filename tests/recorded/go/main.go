// The programs that tests/recorded_go.py records: the first argument names one. Lines that race say RACE and a word;
// lines with one word race with each other, and with no others.
package main

import "os"

var programs = map[string]func(){
	"counter": counter, "captured": captured, "mapwrite": mapwrite, "timer": timer, "chanrace": chanrace,
	"publish": publish, "hidden": hidden, "chanfifo": chanfifo, "many": many, "readers": readers, "panics": panics,
	"sliced": sliced, "condless": condless, "finalized": finalized,
	"mutex": mutex, "rwmutex": rwmutex, "waitgroup": waitgroup, "once": once, "atomics": atomics, "cond": cond,
	"pool": pool, "trylock": trylock, "handed": handed, "unbuffered": unbuffered, "closed": closed,
	"pipeline": pipeline, "selected": selected, "files": files, "spins": spins, "signals": signals, "ranges": ranges,
	"polled": polled, "syncmap": syncmap, "ticker": ticker,
	"exits": exits, "panicked": panicked, "killed": killed, "deadlock": deadlock, "abba": abba, "abbaReaders": abbaReaders,
	"asleep": asleep, "hangs": hangs, "alone": alone, "thousands": thousands,
	"unjoined": unjoined,
	"works": works,
	"twoOrders": twoOrders, "writerWaits": writerWaits, "readerWaits": readerWaits, "comesBack": comesBack,
	"circle": circle, "gated": gated, "oneAfterTheOther": oneAfterTheOther, "onlyReaders": onlyReaders,
	"onlyTries": onlyTries,
	"crowded": crowded,
}

func main() {
	if len(os.Args) < 2 || programs[os.Args[1]] == nil {
		os.Exit(64)
	}
	programs[os.Args[1]]()
}
