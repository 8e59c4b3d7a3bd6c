// Declares a report and sums in C++, where the functions of the same names are ca::ca_report and ca::ca_kept_sums, and
// calls the library. Ends with 0 if it answers as it must.
#include "ca.h"

#include <cstring>

int main()
{
    const uint8_t cars[8] = {0, 0, 0, 1, 1, 1, 0, 1};
    uint8_t letters[CA_MOST_REPORT_LETTERS];
    size_t length = 0;
    ca_report report;
    ca_kept_sums sums;
    const bool reports = ca::ca_report(2, 3, -1, cars, sizeof cars, nullptr, 0, &report, letters, sizeof letters, &length)
                             == CA_CODE_DONE
        && report.fault == CA_FAULT_NONE && report.conserving == 1 && report.surjective == 0;
    const bool keeps = ca::ca_kept_sums(2, 3, cars, sizeof cars, 1, &sums) == CA_FAULT_NONE && sums.rows[1][1] == 1;
    const bool refuses = ca::ca_report(1, 3, -1, cars, sizeof cars, nullptr, 0, &report, letters, sizeof letters, &length)
                             == CA_CODE_DONE
        && std::strcmp(ca_fault_text(report.fault), "there must be 2 to 16 states") == 0;
    ca_rule rule;
    const bool reads = ca_read_rule("2:3:-1:w184", &rule) == CA_FAULT_NONE && rule.offset == -1 && rule.table_length == sizeof cars
        && std::memcmp(rule.table, cars, sizeof cars) == 0;
    return reports && keeps && refuses && reads ? 0 : 1;
}
