// Prints why a vector has its score: the numbers on the way to it, as a JSON object.
#include "cvss.h"

#include <iostream>
#include <string>

// The explanation of a vector; if the text is rejected, the message.
static std::string explain(const std::string &text)
{
    CvssError error = CVSS_ERROR_INIT;
    std::string written(cvss_explain(text.data(), text.size(), 0, &error, nullptr, 0), ' ');
    cvss_explain(text.data(), text.size(), 0, &error, &written[0], written.size());
    return written;
}

int main()
{
    std::cout << explain("CVSS:4.0/AV:N/AC:L/AT:N/PR:N/UI:N/VC:L/VI:H/VA:N/SC:N/SI:N/SA:N/E:P") << '\n';
    return std::cout.flush() ? 0 : 2;
}
