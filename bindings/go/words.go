package cvss

// A Group is the group of a metric: v2 and v3 have temporal metrics, and v4.0 threat and supplemental ones.
type Group string

// The groups.
const (
	Base          Group = "base"
	Temporal      Group = "temporal"
	Threat        Group = "threat"
	Environmental Group = "environmental"
	Supplemental  Group = "supplemental"
)

// A MetricValue is a value of a metric: how a vector spells it, such as N, its name in words, such as Network, and a sentence that
// says what it means.
type MetricValue struct {
	Value       string
	Title       string
	Description string
}

// A MetricType is a metric of a version.
type MetricType struct {
	// Name is the abbreviation, such as AV.
	Name string
	// Title is the name in words, such as Attack Vector.
	Title string
	// Group is the group that it belongs to.
	Group Group
	// Mandatory says whether FIRST's document of the version requires it: it is true for the base metrics.
	Mandatory bool
	// Question is one that a form asks.
	Question string
	// Values are the values, in the order in which a form offers them.
	Values []MetricValue
}

// typesOf is the table of a version.
func typesOf(version Version) []MetricType {
	switch version {
	case V20:
		return v20Types
	case V30, V31:
		return v31Types
	case V40:
		return v40Types
	}
	return nil
}

// Metrics are the metrics of a version, in the order in which a vector prints them: what a form offers. An unknown
// version has none. The slices are the caller's own.
func Metrics(version Version) []MetricType {
	types := append([]MetricType(nil), typesOf(version)...)
	for i := range types {
		types[i].Values = append([]MetricValue(nil), types[i].Values...)
	}
	return types
}

// A Described is a metric that a vector has, and the value that the vector has for it.
type Described struct {
	Metric MetricType
	Value  MetricValue
}

// Described are the metrics that the vector has and their values, with their names in words, in the order of the canonical
// text.
func (v Vector) Described() []Described {
	types := make(map[string]MetricType)
	for _, metric := range Metrics(v.version) {
		types[metric.Name] = metric
	}
	var described []Described
	for _, own := range v.Metrics() {
		metric := types[own.Name]
		for _, value := range metric.Values {
			if value.Value == own.Value {
				described = append(described, Described{metric, value})
			}
		}
	}
	return described
}
