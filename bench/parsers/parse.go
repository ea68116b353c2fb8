// What go.starlark.net's parser takes, for bench/reading.py: `accepts FILE..` prints the names of the files that it reads, `time FILE` the
// nanoseconds of the processor in which it reads a text, the mean of some seconds, with the collection of garbage.
package main

import (
	"fmt"
	"os"
	"syscall"
	"time"

	"go.starlark.net/syntax"
)

const seconds = 4

func read(name string) bool {
	text, err := os.ReadFile(name)
	if err != nil {
		return false
	}
	_, err = syntax.Parse(name, text, syntax.RetainComments)
	return err == nil
}

func processorTime() int64 {
	var used syscall.Rusage
	if err := syscall.Getrusage(syscall.RUSAGE_SELF, &used); err != nil {
		panic(err)
	}
	return used.Utime.Nano() + used.Stime.Nano()
}

func mean(name string) int64 {
	rounds, from := int64(0), processorTime()
	for begin := time.Now(); time.Since(begin) < seconds*time.Second; rounds++ {
		if !read(name) {
			os.Exit(1)
		}
	}
	return (processorTime() - from) / rounds
}

func main() {
	for _, name := range os.Args[2:] {
		if os.Args[1] == "time" {
			fmt.Println(mean(name))
		} else if read(name) {
			fmt.Println(name)
		}
	}
}
