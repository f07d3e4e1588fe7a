// About prints which library there is, or why there is none.
package main

import (
	"fmt"
	"os"

	"palqytun.example/palqytun"
)

func main() {
	build, err := palqytun.Build()
	if err != nil {
		fmt.Fprintln(os.Stderr, err)
		os.Exit(1)
	}
	fmt.Println(build)
}
