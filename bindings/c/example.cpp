// Prints the canonical text, the score and its severity of a vector, and why another is rejected.
#include "cvss.h"

#include <iostream>
#include <string>

// What cvss_parse writes: the canonical text of the vector, or the message.
static std::string parse(const std::string &text, CvssVector &vector, CvssError &error)
{
    std::string written(cvss_parse(text.data(), text.size(), 0, &vector, &error, nullptr, 0), ' ');
    cvss_parse(text.data(), text.size(), 0, &vector, &error, &written[0], written.size());
    return written;
}

int main()
{
    const std::string text = "CVSS:3.1/A:H/I:H/C:H/S:U/UI:N/PR:N/AC:L/AV:N";
    CvssVector vector = CVSS_VECTOR_INIT;
    CvssError error = CVSS_ERROR_INIT;
    const std::string canonical = parse(text, vector, error);
    if (error.kind != CVSS_ACCEPTED)
        return 1;
    std::cout << canonical << ' ' << vector.score / 10 << '.' << vector.score % 10 << ' '
              << cvss_severity_name(vector.severity) << '\n';
    CvssMetric metrics[CVSS_MOST_METRICS];
    const size_t count = cvss_metrics(text.data(), text.size(), 0, metrics, CVSS_MOST_METRICS);
    if (count != 8 || metrics[7].name != std::string("A") || metrics[7].value != std::string("H"))
        return 1;
    const std::string message = parse("CVSS:3.1/AV:Q", vector, error);
    if (error.kind != CVSS_INVALID_VALUE || error.metric != std::string("AV")
        || message.substr(error.quoted_start, error.quoted_length) != "Q")
        return 1;
    std::cout << message << '\n';
    return std::cout.flush() ? 0 : 2;
}
