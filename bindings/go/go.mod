module yuntabek.example/cvss/v2

go 1.19
