module judyd.example/client

go 1.19
