package cvss_test

import (
	"errors"
	"fmt"
	"strings"
	"testing"

	"yuntabek.example/cvss/v2"
)

// report is what `cvss find` prints for a match of the text in this line.
func report(line int, match cvss.Match) string {
	result := fmt.Sprintf("%v %v %v", match.Vector, match.Vector.Score(), match.Vector.Severity())
	if match.Err != nil {
		result = fmt.Sprintf("error: %v", match.Err)
	}
	return fmt.Sprintf("%d:%d %s", line, match.Offset+1, result)
}

// The matches in the stored texts are those of the second implementation in reference/.
func TestStoredTextsHaveTheirMatches(t *testing.T) {
	var reports []string
	for i, text := range lines(t, "tests/stored/texts") {
		incomplete := cvss.FindIncomplete([]byte(text))
		for j, match := range cvss.Find([]byte(text)) {
			if !strings.HasPrefix(text[match.Offset:], match.Text) {
				t.Errorf("%q: %v", text, match)
			}
			reports = append(reports, report(i+1, match))
			other := incomplete[j]
			if other.Offset != match.Offset || other.Text != match.Text || match.Err == nil && other != match {
				t.Errorf("%q: %v, and with incomplete vectors %v", text, match, other)
			}
			if vector, err := cvss.ParseIncomplete(match.Text); vector != other.Vector || (err == nil) != (other.Err == nil) {
				t.Errorf("%q: %v", text, other)
			}
		}
	}
	expected := lines(t, "tests/stored/found")
	for i := range expected {
		if i >= len(reports) || reports[i] != expected[i] {
			t.Fatalf("%q is not among the matches", expected[i])
		}
	}
	if len(reports) != len(expected) {
		t.Errorf("%d matches, and not %d", len(reports), len(expected))
	}
	if found := cvss.Find(nil); found != nil {
		t.Errorf("%v", found)
	}
}

// The part of a run after a percent sign is no text of its own, as in `cvss find` and in reference/finding.py.
func TestALinkHasOneMatch(t *testing.T) {
	link := "https://x/?v3=" + stored + "%20v2:AV:N/AC:L/Au:N/C:N/I:N/A:C"
	found := cvss.Find([]byte(link))
	if len(found) != 1 || found[0].Offset != 14 || found[0].Vector != parsed(t, stored) || found[0].Err != nil {
		t.Errorf("%v", found)
	}
	found = cvss.Find([]byte(link + " " + link))
	if len(found) != 2 || found[1].Offset != 15+len(link) || found[1].Vector != parsed(t, stored) {
		t.Errorf("%v", found)
	}
}

func ExampleFind() {
	text := []byte("scored 7.8 (AV:N/AC:L/Au:N/C:N/I:N/A:C), or CVSS:3.1/AV:Q.")
	for _, match := range cvss.Find(text) {
		fmt.Println(match.Offset, match.Text, match.Vector.Score(), match.Err)
		var rejected *cvss.ParseError
		fmt.Println(errors.As(match.Err, &rejected))
	}
	// Output:
	// 12 AV:N/AC:L/Au:N/C:N/I:N/A:C 7.8 <nil>
	// false
	// 44 CVSS:3.1/AV:Q 0.0 invalid CVSSv3 AV (Attack Vector) metric: `Q`
	// true
}
