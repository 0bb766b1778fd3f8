module sctprattle

go 1.19
