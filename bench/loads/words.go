// Four workers sort and count words in N rounds.
package main

import (
	"fmt"
	"os"
	"sort"
	"strconv"
	"strings"
	"sync"
)

type table struct {
	mu     sync.Mutex
	counts map[string]int
}

func (t *table) add(counts map[string]int) {
	t.mu.Lock()
	defer t.mu.Unlock()
	for word, count := range counts {
		t.counts[word] += count
	}
}

func count(words []string) map[string]int {
	sort.Strings(words)
	counts := map[string]int{}
	for _, word := range strings.Fields(strings.Join(words, " ")) {
		counts[word]++
	}
	return counts
}

func main() {
	rounds := 1
	if len(os.Args) > 1 {
		rounds, _ = strconv.Atoi(os.Args[1])
	}
	all := table{counts: map[string]int{}}
	var done sync.WaitGroup
	for worker := 1; worker <= 4; worker++ {
		done.Add(1)
		go func(seed int) {
			defer done.Done()
			for round := 0; round < rounds; round++ {
				words := make([]string, 500)
				for k := range words {
					seed = seed*1103515245 + 12345
					words[k] = fmt.Sprintf("word%d", seed>>16&255)
				}
				all.add(count(words))
			}
		}(worker)
	}
	done.Wait()
	fmt.Println(len(all.counts))
}
