// A crash by pipe, from Go: BLOBCRASH=out/blobcrash go run examples/pipe.go
package main

import (
	"bufio"
	"fmt"
	"os"
	"os/exec"
)

func main() {
	program := exec.Command(os.Getenv("BLOBCRASH"))
	lines, _ := program.StdinPipe()
	output, _ := program.StdoutPipe()
	replies := bufio.NewScanner(output)
	if err := program.Start(); err != nil {
		panic(err)
	}
	fmt.Fprintln(lines, "words 0 0 max") // a preamble line has no reply
	for _, call := range []string{"config write 0 1 1 2 prefix", "open p 62", "write 0 0 616263", "crash", "reopen", "open p 62", "read 1 0 2"} {
		fmt.Fprintln(lines, call)
		replies.Scan() // each reply arrives before the next line is due
		fmt.Println(call, "=>", replies.Text())
	}
}
