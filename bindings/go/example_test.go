package cvss_test

import (
	"encoding/json"
	"errors"
	"fmt"

	"yuntabek.example/cvss/v2"
)

func Example() {
	vector, err := cvss.Parse("CVSS:3.1/A:H/I:H/C:H/S:U/UI:N/PR:N/AC:L/AV:N")
	if err != nil {
		fmt.Println(err)
		return
	}
	fmt.Println(vector, vector.Score(), vector.Severity())
	_, err = cvss.Parse("CVSS:3.1/AV:Q")
	var rejected *cvss.ParseError
	if errors.As(err, &rejected) {
		fmt.Println(rejected.Metric, rejected)
	}
	// Output:
	// CVSS:3.1/AV:N/AC:L/PR:N/UI:N/S:U/C:H/I:H/A:H 9.8 critical
	// AV invalid CVSSv3 AV (Attack Vector) metric: `Q`
}

func ExampleParseIncomplete() {
	_, err := cvss.Parse("CVSS:3.1/AV:N/AC:L/PR:N/UI:N/S:U/C:H")
	fmt.Println(err)
	vector, err := cvss.ParseIncomplete("CVSS:3.1/AV:N/AC:L/PR:N/UI:N/S:U/C:H")
	fmt.Println(vector.Score(), vector.IsComplete(), err)
	// Output:
	// missing mandatory CVSSv3 I (Integrity Impact) metric
	// 7.5 false <nil>
}

func ExampleVector_Score() {
	vector, err := cvss.Parse("CVSS:3.1/AV:N/AC:L/PR:N/UI:N/S:U/C:H/I:H/A:H/E:U/RL:O/RC:C")
	fmt.Println(vector.Score(), vector.BaseScore(), err)
	// Output:
	// 8.5 9.8 <nil>
}

func ExampleVector_Explain() {
	vector, err := cvss.Parse("CVSS:4.0/AV:N/AC:L/AT:N/PR:N/UI:N/VC:L/VI:H/VA:N/SC:N/SI:N/SA:N/E:P")
	if err != nil {
		fmt.Println(err)
		return
	}
	var explanation struct {
		MacroVector  string
		Value        float64
		Mean, Number float64
		Score        float64
		Groups       []struct {
			Group string
			Share *float64
		}
	}
	err = json.Unmarshal(vector.Explain(), &explanation)
	fmt.Println(explanation.MacroVector, explanation.Value, explanation.Mean, explanation.Number, explanation.Score, err)
	for _, group := range explanation.Groups {
		if group.Share != nil {
			fmt.Println(group.Group, *group.Share)
		}
	}
	// Output:
	// 001210 7.8 0.05 7.75 7.8 <nil>
	// EQ1 0
	// EQ2 0
	// EQ3+EQ6 0.2
	// EQ5 0
}

func ExampleVector_MarshalText() {
	vector, err := cvss.Parse("CVSS:3.1/AV:N/AC:L/PR:N/UI:N/S:U/C:H/I:H/A:H")
	if err != nil {
		fmt.Println(err)
		return
	}
	text, err := json.Marshal(map[string]cvss.Vector{"cvss": vector})
	fmt.Println(string(text), err)
	// Output:
	// {"cvss":"CVSS:3.1/AV:N/AC:L/PR:N/UI:N/S:U/C:H/I:H/A:H"} <nil>
}
