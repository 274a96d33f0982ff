package cvss_test

import (
	"strings"
	"testing"

	"yuntabek.example/cvss/v2"
)

// Each metric that a vector has is in the table of its version, with its value.
func TestMetricsAreDescribedInWords(t *testing.T) {
	for _, text := range storedLines(t, "stdin") {
		vector, err := cvss.ParseIncomplete(text)
		if err != nil {
			continue
		}
		var letters []string
		for _, own := range vector.Described() {
			letters = append(letters, own.Metric.Name+":"+own.Value.Value)
		}
		if got := strings.Join(letters, "/"); got == "" || !strings.HasSuffix("/"+vector.String(), "/"+got) ||
			len(letters) != len(vector.Metrics()) {
			t.Errorf("%v: %s", vector, got)
		}
	}
}

// CVSS v2 guide, section 2; v3.1 specification, table 1; v4.0 specification, section 1.2.
func TestMetricsOfAVersion(t *testing.T) {
	for _, row := range []struct {
		version     cvss.Version
		all, base   int
		first, name string
	}{
		{cvss.V20, 14, 6, "AV", "Access Vector"}, {cvss.V30, 22, 8, "AV", "Attack Vector"},
		{cvss.V31, 22, 8, "AV", "Attack Vector"}, {cvss.V40, 32, 11, "AV", "Attack Vector"},
	} {
		types, mandatory := cvss.Metrics(row.version), 0
		for _, metric := range types {
			if metric.Mandatory != (metric.Group == cvss.Base) {
				t.Errorf("%v", metric)
			}
			if metric.Mandatory {
				mandatory++
			}
		}
		if len(types) != row.all || mandatory != row.base || types[0].Name != row.first || types[0].Title != row.name {
			t.Errorf("%s: %d metrics, of which %d are mandatory, and first %v", row.version, len(types), mandatory, types[0])
		}
		types[0].Name, types[0].Values[0].Title = "", ""
		if own := cvss.Metrics(row.version)[0]; own.Name != row.first || own.Values[0].Title != "Network" {
			t.Errorf("a caller has changed the table: %v", own)
		}
	}
	if types := cvss.Metrics("5.0"); len(types) != 0 {
		t.Errorf("%v", types)
	}
}
