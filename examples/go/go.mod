module example.org/da

go 1.19
