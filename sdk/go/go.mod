module kotskhin.example/sdk/go

go 1.18
