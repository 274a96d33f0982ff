package cvss

import (
	"errors"
	"strings"
)

// A Metric is a metric's abbreviation, and the value that a vector has for it.
type Metric struct {
	Name  string
	Value string
}

// Metrics are the metrics that the vector has, in the order of its canonical text.
func (v Vector) Metrics() []Metric {
	var own [mostMetrics]metricStruct
	metrics := make([]Metric, libraryMetrics(v.text, allowIncomplete, &own))
	for i := range metrics {
		metrics[i] = Metric{textOf(&own[i].name), textOf(&own[i].value)}
	}
	return metrics
}

// WithMetrics is the vector with these metrics, which replace its own or are added. Any metric of the version can be set.
// In v3 and v4.0 names and values may be in any ASCII case. X and ND are values like others: they do not remove a metric. The
// error is a *ParseError.
func (v Vector) WithMetrics(metrics []Metric) (Vector, error) {
	components := componentsOf(metrics)
	vector, err := vectorOf(len(v.text)+len(components), func(own *output, buffer []byte) int {
		return own.scored(libraryWithMetrics(v.text, components, allowIncomplete, &own.failure, buffer), buffer)
	})
	return vector, slashError(err, metrics)
}

// WithoutNotDefined is the vector without the metrics that are not defined (X, in v2 ND): it has the same scores. A
// v3 vector that has no others is returned as it is. The nomenclature of v4.0 may change, since it counts a metric that is
// given as X.
func (v Vector) WithoutNotDefined() Vector {
	vector, _ := vectorOf(len(v.text), func(own *output, buffer []byte) int {
		return own.scored(libraryWithoutNotDefined(v.text, allowIncomplete, &own.failure, buffer), buffer)
	})
	return vector
}

// FromMetrics is the vector of a version with these metrics, in any order. The error is a *ParseError.
func FromMetrics(version Version, metrics []Metric) (Vector, error) {
	return fromMetrics(version, metrics, 0)
}

// FromMetricsIncomplete is FromMetrics, but a vector of v3 may lack base metrics.
func FromMetricsIncomplete(version Version, metrics []Metric) (Vector, error) {
	return fromMetrics(version, metrics, allowIncomplete)
}

func fromMetrics(version Version, metrics []Metric, flags uint32) (Vector, error) {
	number := numberOf(version)
	if number == 0 {
		return Vector{}, unsupported(version)
	}
	components := componentsOf(metrics)
	vector, err := vectorOf(len(components), func(own *output, buffer []byte) int {
		return own.scored(libraryFromMetrics(number, components, flags, &own.failure, buffer), buffer)
	})
	return vector, slashError(err, metrics)
}

func componentOf(metric Metric) string { return metric.Name + ":" + metric.Value }

// componentsOf are the components of metrics, joined by slashes. The library would read one that has a slash as two; two
// colons replace it, which the library rejects at its index, and slashError restores it.
func componentsOf(metrics []Metric) string {
	components := make([]string, len(metrics))
	for i, metric := range metrics {
		components[i] = componentOf(metric)
		if strings.Contains(components[i], "/") {
			components[i] = "::"
		}
	}
	return strings.Join(components, "/")
}

// slashError is the error of metrics, with the component that has a slash if that is the rejected one.
func slashError(err error, metrics []Metric) error {
	var rejected *ParseError
	if !errors.As(err, &rejected) || rejected.Index < 0 || rejected.Index >= len(metrics) {
		return err
	}
	component := componentOf(metrics[rejected.Index])
	if !strings.Contains(component, "/") {
		return err
	}
	message := "invalid CVSS metric group component: `" + component + "`"
	return &ParseError{InvalidComponent, "", component, message, rejected.Index}
}
