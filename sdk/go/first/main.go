// Two recordings, one collection, one delivery, one table: the script of examples/first.otm, in Go.
package main

import (
	"fmt"
	"log"

	kotskhin "kotskhin.example/sdk/go"
)

func must[T any](made T, err error) T {
	if err != nil {
		log.Fatal(err)
	}
	return made
}

func main() {
	plan := must(kotskhin.NewPlan(kotskhin.Instrument{Scope: "app", Name: "requests", Unit: "1", Kind: kotskhin.Counter}))
	writer := must(kotskhin.StartWriter(plan, "shop", kotskhin.Instance{Low: 1}, 100))
	none := must(kotskhin.NewAttributes())
	for _, value := range []int64{3, 4} {
		if err := writer.Measure(0, none, value); err != nil {
			log.Fatal(err)
		}
	}
	gateway := must(kotskhin.OpenGateway(1))
	must(gateway.Take(must(writer.Collect(200))))
	fmt.Print(must(gateway.Sum("app", "requests", "1", true)))
}
