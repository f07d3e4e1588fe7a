module palqytun.example/palqytun

go 1.19
