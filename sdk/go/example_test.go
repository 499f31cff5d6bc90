package kotskhin_test

import (
	"errors"
	"fmt"
	"log"

	kotskhin "kotskhin.example/sdk/go"
	"kotskhin.example/sdk/go/attribute"
)

func must[T any](made T, err error) T {
	if err != nil {
		log.Fatal(err)
	}
	return made
}

// A writer records, a gateway takes what was collected, and tells its rows.
func Example() {
	plan := must(kotskhin.NewPlan(kotskhin.Instrument{Scope: "app", Name: "requests", Unit: "1", Kind: kotskhin.Counter}))
	writer := must(kotskhin.StartWriter(plan, "shop", must(kotskhin.UniqueInstance()), 100))
	defer writer.Close()
	home := must(kotskhin.NewAttributes(attribute.String("route", "/"), attribute.Int("status", 200)))
	for _, value := range []int64{3, 4} {
		if err := writer.Measure(0, home, value); err != nil {
			log.Fatal(err)
		}
	}
	gateway := must(kotskhin.OpenGateway(1))
	defer gateway.Close()
	must(gateway.Take(must(writer.Collect(200))))
	ask := must(kotskhin.AskSum("app", "requests", "1", true))
	for _, row := range must(must(gateway.Rows(ask)).All()) {
		fmt.Println(row.Attributes[0].Key, row.Attributes[0].Value.Emit(), row.Total)
	}
	// Output: route / 7
}

// A refusal is found by its code, and has the place that it tells.
func ExampleRefused() {
	plan := must(kotskhin.NewPlan(kotskhin.Instrument{Scope: "app", Name: "requests", Unit: "1", Kind: kotskhin.Counter}))
	writer := must(kotskhin.StartWriter(plan, "shop", kotskhin.Instance{Low: 1}, 100))
	must(writer.Collect(200))
	_, err := writer.Collect(150)
	var why kotskhin.Refused
	fmt.Println(errors.Is(err, kotskhin.ErrTimeNotAfter), errors.As(err, &why), why.Place)
	fmt.Println(err)
	// Output:
	// true true 200
	// kotskhin: TIME_NOT_AFTER: the time is not after that of the last collection (time 200)
}

// Exports go to other processes as bytes; who receives one looks whose it is before it is taken.
func ExampleDecodeExport() {
	plan := must(kotskhin.NewPlan(kotskhin.Instrument{Scope: "app", Name: "requests", Unit: "1", Kind: kotskhin.Counter}))
	writer := must(kotskhin.StartWriter(plan, "shop", kotskhin.Instance{Low: 1}, 100))
	bytes := must(must(writer.Collect(200)).Encode())

	export := must(kotskhin.DecodeExport(bytes))
	defer export.Close()
	head := must(export.Head())
	fmt.Println(head.Service, head.Instance, head.Start, head.Time, head.Points)
	// Output: shop 00000000-0000-0000-0000-000000000001 100 200 0
}

// A worker ends, an archive adopts what it counted, and a gateway that takes the archive's export forgets the worker's points. The total
// stays as it was, and what the worker exports later is late.
func ExampleArchive() {
	plan := must(kotskhin.NewPlan(kotskhin.Instrument{Scope: "app", Name: "requests", Unit: "1", Kind: kotskhin.Counter}))
	worker := kotskhin.Instance{Low: 1}
	writer := must(kotskhin.StartWriter(plan, "shop", worker, 100))
	if err := writer.Measure(0, must(kotskhin.NewAttributes()), 7); err != nil {
		log.Fatal(err)
	}
	last := must(writer.Shutdown(200))
	gateway := must(kotskhin.OpenGateway(1))
	must(gateway.Take(last))

	archive := must(kotskhin.BeginArchive("shop", 10_000))
	if err := archive.Adopt(gateway, "shop", worker, 100); err != nil {
		log.Fatal(err)
	}
	must(gateway.Take(must(archive.Export(2000))))
	fmt.Println(must(gateway.Take(last)).Late)
	fmt.Print(must(gateway.Sum("app", "requests", "1", true)))
	// Output:
	// true
	// attributes  points  conflicts  total
	// {}               1          0  7
}
