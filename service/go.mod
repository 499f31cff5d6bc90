module kotskhin.example/service

go 1.18

require kotskhin.example/sdk/go v0.0.0

replace kotskhin.example/sdk/go => ../sdk/go
