/*
 * Names and words for what cvss.h has as numbers and letters: versions, nomenclatures, the metrics of each version and their
 * values. Nothing is linked: the tables are in this header.
 *
 * Written by bindings/tables.py from bindings/metrics.json.
 */
#ifndef CVSS_WORDS_H
#define CVSS_WORDS_H

#include "cvss.h"

#ifdef __cplusplus
extern "C" {
#endif

/* The name of a version or a nomenclature, as "3.1" and "CVSS-BT"; NULL for another number. */
static inline const char *cvss_version_name(int32_t version)
{
    return version == 20 ? "2.0" : version == 30 ? "3.0" : version == 31 ? "3.1" : version == 40 ? "4.0" : NULL;
}

static inline const char *cvss_nomenclature_name(int32_t nomenclature)
{
    static const char *const names[] = {"CVSS-B", "CVSS-BE", "CVSS-BT", "CVSS-BTE"};

    return CVSS_B <= nomenclature && nomenclature <= CVSS_BTE ? names[nomenclature] : NULL;
}

/* A value of a metric: how a vector spells it, its name in words, and a sentence that says what it means. */
typedef struct CvssValueType {
    const char *value;
    const char *title;
    const char *description;
} CvssValueType;

/* A metric of a version. */
typedef struct CvssMetricType {
    const char *name;     /* the abbreviation, as "AV" */
    const char *title;    /* the name in words, as "Attack Vector" */
    const char *group;    /* "base", "temporal", "threat", "environmental" or "supplemental" */
    bool is_mandatory;    /* whether a vector that lacks it is incomplete: true for the base metrics */
    const char *question; /* one that a form asks */
    const CvssValueType *values;
    size_t count; /* of the values */
} CvssMetricType;

static const CvssValueType cvss_v20_AV[] = {
    {"N", "Network", "The attack works over a network."},
    {"A", "Adjacent network", "On the same local network, or in radio range."},
    {"L", "Local", "On the system, through an account, or at the device."}};

static const CvssValueType cvss_v20_AC[] = {
    {"L", "Low", "The attack works against the default configuration."},
    {"M", "Medium", "The configuration is not the default, or information must be gathered first."},
    {"H", "High", "There is a narrow race, a rare configuration, or victims who would easily notice."}};

static const CvssValueType cvss_v20_Au[] = {
    {"N", "None", "The attacker need not log in."},
    {"S", "Single", "The attacker must log in once."},
    {"M", "Multiple", "The attacker must log in twice or more, even with the same credentials."}};

static const CvssValueType cvss_v20_C[] = {
    {"C", "Complete", "All data on the system can be read."},
    {"P", "Partial", "Much data can be read, but the attacker does not choose which."},
    {"N", "None", "No data can be read."}};

static const CvssValueType cvss_v20_I[] = {
    {"C", "Complete", "All data on the system can be changed."},
    {"P", "Partial", "Some data can be changed, but the attacker does not choose which."},
    {"N", "None", "No data can be changed."}};

static const CvssValueType cvss_v20_A[] = {
    {"C", "Complete", "The system can be stopped completely."},
    {"P", "Partial", "It becomes slower or is interrupted at times."},
    {"N", "None", "It keeps working as before."}};

static const CvssValueType cvss_v20_E[] = {
    {"ND", "Not defined", "It counts as High."},
    {"H", "High", "Autonomous exploit code exists, or none is needed."},
    {"F", "Functional", "Working exploit code exists."},
    {"POC", "Proof of concept", "A proof of concept exists, which needs work before it can be used in an attack."},
    {"U", "Unproven", "No exploit code is known, or the attack is theoretical."}};

static const CvssValueType cvss_v20_RL[] = {
    {"ND", "Not defined", "It counts as Unavailable."},
    {"U", "Unavailable", "There is no fix, or it cannot be applied."},
    {"W", "Workaround", "There is an unofficial workaround."},
    {"TF", "Temporary fix", "There is an official but temporary fix."},
    {"OF", "Official fix", "The vendor has a complete fix."}};

static const CvssValueType cvss_v20_RC[] = {
    {"ND", "Not defined", "It counts as Confirmed."},
    {"C", "Confirmed", "The vendor has confirmed it, or it is exploited."},
    {"UR", "Uncorroborated", "Several unofficial sources report it, and may disagree."},
    {"UC", "Unconfirmed", "One source reports it, or several that contradict each other."}};

static const CvssValueType cvss_v20_CDP[] = {
    {"ND", "Not defined", "It counts as None."},
    {"N", "None", "Nothing else can be lost."},
    {"L", "Low", "Little can be lost."},
    {"LM", "Low to medium", "A moderate amount can be lost."},
    {"MH", "Medium to high", "A significant amount can be lost."},
    {"H", "High", "Losses can be catastrophic."}};

static const CvssValueType cvss_v20_TD[] = {
    {"ND", "Not defined", "It counts as High."},
    {"N", "None", "At most systems in a laboratory are targets."},
    {"L", "Low", "Up to a quarter of them are targets."},
    {"M", "Medium", "A quarter to three quarters of them are targets."},
    {"H", "High", "More than three quarters of them are targets."}};

static const CvssValueType cvss_v20_CR[] = {
    {"ND", "Not defined", "It counts as Medium."},
    {"L", "Low", "A loss of confidentiality has only limited effects on the organisation."},
    {"M", "Medium", "A loss of confidentiality has serious effects on the organisation."},
    {"H", "High", "A loss of confidentiality can be catastrophic for the organisation."}};

static const CvssValueType cvss_v20_IR[] = {
    {"ND", "Not defined", "It counts as Medium."},
    {"L", "Low", "A loss of integrity has only limited effects on the organisation."},
    {"M", "Medium", "A loss of integrity has serious effects on the organisation."},
    {"H", "High", "A loss of integrity can be catastrophic for the organisation."}};

static const CvssValueType cvss_v20_AR[] = {
    {"ND", "Not defined", "It counts as Medium."},
    {"L", "Low", "A loss of availability has only limited effects on the organisation."},
    {"M", "Medium", "A loss of availability has serious effects on the organisation."},
    {"H", "High", "A loss of availability can be catastrophic for the organisation."}};

static const CvssMetricType cvss_v20_types[] = {
    {"AV", "Access Vector", "base", true,
     "Where must the attacker be?", cvss_v20_AV, 3},
    {"AC", "Access Complexity", "base", true,
     "How special must the conditions be?", cvss_v20_AC, 3},
    {"Au", "Authentication", "base", true,
     "How often must the attacker log in?", cvss_v20_Au, 3},
    {"C", "Confidentiality Impact", "base", true,
     "What can the attacker read?", cvss_v20_C, 3},
    {"I", "Integrity Impact", "base", true,
     "What can the attacker change?", cvss_v20_I, 3},
    {"A", "Availability Impact", "base", true,
     "Can the attacker stop it?", cvss_v20_A, 3},
    {"E", "Exploitability", "temporal", false,
     "How mature is the exploit code?", cvss_v20_E, 5},
    {"RL", "Remediation Level", "temporal", false,
     "Is there a fix?", cvss_v20_RL, 5},
    {"RC", "Report Confidence", "temporal", false,
     "How certain is the report?", cvss_v20_RC, 4},
    {"CDP", "Collateral Damage Potential", "environmental", false,
     "What else can be lost: lives, assets, revenue?", cvss_v20_CDP, 6},
    {"TD", "Target Distribution", "environmental", false,
     "How many of your systems are targets?", cvss_v20_TD, 5},
    {"CR", "Confidentiality Requirement", "environmental", false,
     "How bad is a loss of confidentiality?", cvss_v20_CR, 4},
    {"IR", "Integrity Requirement", "environmental", false,
     "How bad is a loss of integrity?", cvss_v20_IR, 4},
    {"AR", "Availability Requirement", "environmental", false,
     "How bad is a loss of availability?", cvss_v20_AR, 4}};

static const CvssValueType cvss_v31_AV[] = {
    {"N", "Network", "The attack works over a network, across routers."},
    {"A", "Adjacent", "On the same link, in radio range, or inside the same administrative network."},
    {"L", "Local", "On the system, through an account, a console, or a file that a user opens."},
    {"P", "Physical", "The attacker must touch or handle the device."}};

static const CvssValueType cvss_v31_AC[] = {
    {"L", "Low", "The attack can be repeated at will."},
    {"H", "High", "The attacker must first gather knowledge, prepare the target, or intercept traffic."}};

static const CvssValueType cvss_v31_PR[] = {
    {"N", "None", "No account is needed."},
    {"L", "Low", "Those of an ordinary user."},
    {"H", "High", "Those of an administrator, or close to them."}};

static const CvssValueType cvss_v31_UI[] = {
    {"N", "None", "The attacker acts alone."},
    {"R", "Required", "A user must do something first, such as opening a file."}};

static const CvssValueType cvss_v31_S[] = {
    {"U", "Unchanged", "The impact stays within the security authority of the vulnerable component."},
    {"C", "Changed", "The impact reaches resources of another security authority."}};

static const CvssValueType cvss_v31_C[] = {
    {"H", "High", "All data can be read, or data whose disclosure does serious harm."},
    {"L", "Low", "Some data can be read, but the attacker does not choose which."},
    {"N", "None", "No data can be read."}};

static const CvssValueType cvss_v31_I[] = {
    {"H", "High", "All data can be changed, or data whose change does serious harm."},
    {"L", "Low", "Some data can be changed, without direct serious harm."},
    {"N", "None", "No data can be changed."}};

static const CvssValueType cvss_v31_A[] = {
    {"H", "High", "It can be stopped completely, or its most important part can."},
    {"L", "Low", "It becomes slower or is interrupted at times, but keeps working."},
    {"N", "None", "It keeps working as before."}};

static const CvssValueType cvss_v31_E[] = {
    {"X", "Not defined", "It counts as High."},
    {"H", "High", "Autonomous exploit code exists, or none is needed."},
    {"F", "Functional", "Working exploit code exists."},
    {"P", "Proof of concept", "A proof of concept exists, which needs work before it can be used in an attack."},
    {"U", "Unproven", "No exploit code is known, or the attack is theoretical."}};

static const CvssValueType cvss_v31_RL[] = {
    {"X", "Not defined", "It counts as Unavailable."},
    {"U", "Unavailable", "There is no fix, or it cannot be applied."},
    {"W", "Workaround", "There is an unofficial workaround."},
    {"T", "Temporary fix", "There is an official but temporary fix."},
    {"O", "Official fix", "The vendor has a complete fix."}};

static const CvssValueType cvss_v31_RC[] = {
    {"X", "Not defined", "It counts as Confirmed."},
    {"C", "Confirmed", "It was reproduced, or the vendor has confirmed it."},
    {"R", "Reasonable", "Much is known, but the cause is not fully certain."},
    {"U", "Unknown", "There are reports, but the cause is unknown."}};

static const CvssValueType cvss_v31_CR[] = {
    {"X", "Not defined", "It counts as Medium."},
    {"H", "High", "A loss of confidentiality can be catastrophic for the organisation."},
    {"M", "Medium", "A loss of confidentiality has serious effects on the organisation."},
    {"L", "Low", "A loss of confidentiality has only limited effects on the organisation."}};

static const CvssValueType cvss_v31_IR[] = {
    {"X", "Not defined", "It counts as Medium."},
    {"H", "High", "A loss of integrity can be catastrophic for the organisation."},
    {"M", "Medium", "A loss of integrity has serious effects on the organisation."},
    {"L", "Low", "A loss of integrity has only limited effects on the organisation."}};

static const CvssValueType cvss_v31_AR[] = {
    {"X", "Not defined", "It counts as Medium."},
    {"H", "High", "A loss of availability can be catastrophic for the organisation."},
    {"M", "Medium", "A loss of availability has serious effects on the organisation."},
    {"L", "Low", "A loss of availability has only limited effects on the organisation."}};

static const CvssValueType cvss_v31_MAV[] = {
    {"X", "Not defined", "The same as AV."},
    {"N", "Network", "The attack works over a network, across routers."},
    {"A", "Adjacent", "On the same link, in radio range, or inside the same administrative network."},
    {"L", "Local", "On the system, through an account, a console, or a file that a user opens."},
    {"P", "Physical", "The attacker must touch or handle the device."}};

static const CvssValueType cvss_v31_MAC[] = {
    {"X", "Not defined", "The same as AC."},
    {"L", "Low", "The attack can be repeated at will."},
    {"H", "High", "The attacker must first gather knowledge, prepare the target, or intercept traffic."}};

static const CvssValueType cvss_v31_MPR[] = {
    {"X", "Not defined", "The same as PR."},
    {"N", "None", "No account is needed."},
    {"L", "Low", "Those of an ordinary user."},
    {"H", "High", "Those of an administrator, or close to them."}};

static const CvssValueType cvss_v31_MUI[] = {
    {"X", "Not defined", "The same as UI."},
    {"N", "None", "The attacker acts alone."},
    {"R", "Required", "A user must do something first, such as opening a file."}};

static const CvssValueType cvss_v31_MS[] = {
    {"X", "Not defined", "The same as S."},
    {"U", "Unchanged", "The impact stays within the security authority of the vulnerable component."},
    {"C", "Changed", "The impact reaches resources of another security authority."}};

static const CvssValueType cvss_v31_MC[] = {
    {"X", "Not defined", "The same as C."},
    {"H", "High", "All data can be read, or data whose disclosure does serious harm."},
    {"L", "Low", "Some data can be read, but the attacker does not choose which."},
    {"N", "None", "No data can be read."}};

static const CvssValueType cvss_v31_MI[] = {
    {"X", "Not defined", "The same as I."},
    {"H", "High", "All data can be changed, or data whose change does serious harm."},
    {"L", "Low", "Some data can be changed, without direct serious harm."},
    {"N", "None", "No data can be changed."}};

static const CvssValueType cvss_v31_MA[] = {
    {"X", "Not defined", "The same as A."},
    {"H", "High", "It can be stopped completely, or its most important part can."},
    {"L", "Low", "It becomes slower or is interrupted at times, but keeps working."},
    {"N", "None", "It keeps working as before."}};

static const CvssMetricType cvss_v31_types[] = {
    {"AV", "Attack Vector", "base", true,
     "Where must the attacker be?", cvss_v31_AV, 4},
    {"AC", "Attack Complexity", "base", true,
     "Does success depend on conditions that the attacker does not control?", cvss_v31_AC, 2},
    {"PR", "Privileges Required", "base", true,
     "Which privileges does the attacker need beforehand?", cvss_v31_PR, 3},
    {"UI", "User Interaction", "base", true,
     "Must another person take part?", cvss_v31_UI, 2},
    {"S", "Scope", "base", true,
     "Does the impact cross a security boundary?", cvss_v31_S, 2},
    {"C", "Confidentiality Impact", "base", true,
     "What can the attacker read?", cvss_v31_C, 3},
    {"I", "Integrity Impact", "base", true,
     "What can the attacker change?", cvss_v31_I, 3},
    {"A", "Availability Impact", "base", true,
     "Can the attacker stop it?", cvss_v31_A, 3},
    {"E", "Exploit Code Maturity", "temporal", false,
     "How mature is the exploit code?", cvss_v31_E, 5},
    {"RL", "Remediation Level", "temporal", false,
     "Is there a fix?", cvss_v31_RL, 5},
    {"RC", "Report Confidence", "temporal", false,
     "How certain is the report?", cvss_v31_RC, 4},
    {"CR", "Confidentiality Requirement", "environmental", false,
     "How bad is a loss of confidentiality?", cvss_v31_CR, 4},
    {"IR", "Integrity Requirement", "environmental", false,
     "How bad is a loss of integrity?", cvss_v31_IR, 4},
    {"AR", "Availability Requirement", "environmental", false,
     "How bad is a loss of availability?", cvss_v31_AR, 4},
    {"MAV", "Modified Attack Vector", "environmental", false,
     "Where must the attacker be?", cvss_v31_MAV, 5},
    {"MAC", "Modified Attack Complexity", "environmental", false,
     "Does success depend on conditions that the attacker does not control?", cvss_v31_MAC, 3},
    {"MPR", "Modified Privileges Required", "environmental", false,
     "Which privileges does the attacker need beforehand?", cvss_v31_MPR, 4},
    {"MUI", "Modified User Interaction", "environmental", false,
     "Must another person take part?", cvss_v31_MUI, 3},
    {"MS", "Modified Scope", "environmental", false,
     "Does the impact cross a security boundary?", cvss_v31_MS, 3},
    {"MC", "Modified Confidentiality", "environmental", false,
     "What can the attacker read?", cvss_v31_MC, 4},
    {"MI", "Modified Integrity", "environmental", false,
     "What can the attacker change?", cvss_v31_MI, 4},
    {"MA", "Modified Availability", "environmental", false,
     "Can the attacker stop it?", cvss_v31_MA, 4}};

static const CvssValueType cvss_v40_AV[] = {
    {"N", "Network", "The attack works over a network, across routers."},
    {"A", "Adjacent", "On the same link, in radio range, or inside the same administrative network."},
    {"L", "Local", "On the system, through an account, a console, or a file that a user opens."},
    {"P", "Physical", "The attacker must touch or handle the device."}};

static const CvssValueType cvss_v40_AC[] = {
    {"L", "Low", "The attack can be repeated at will."},
    {"H", "High", "A security measure must be overcome, such as address randomisation or a secret."}};

static const CvssValueType cvss_v40_AT[] = {
    {"N", "None", "The attack works against most deployments, most of the time."},
    {"P", "Present", "A race condition must be won, or the system must be configured in a certain way."}};

static const CvssValueType cvss_v40_PR[] = {
    {"N", "None", "No account is needed."},
    {"L", "Low", "Those of an ordinary user."},
    {"H", "High", "Those of an administrator, or close to them."}};

static const CvssValueType cvss_v40_UI[] = {
    {"N", "None", "The attacker acts alone."},
    {"P", "Passive", "A user does something ordinary, such as opening a page, unaware of the attack."},
    {"A", "Active", "A user does something unusual, such as dismissing a warning."}};

static const CvssValueType cvss_v40_VC[] = {
    {"H", "High", "All of its data can be read, or data whose disclosure does serious harm."},
    {"L", "Low", "Some of its data can be read, but the attacker does not choose which."},
    {"N", "None", "Its data cannot be read."}};

static const CvssValueType cvss_v40_VI[] = {
    {"H", "High", "All of its data can be changed, or data whose change does serious harm."},
    {"L", "Low", "Some data can be changed, without direct serious harm."},
    {"N", "None", "Its data cannot be changed."}};

static const CvssValueType cvss_v40_VA[] = {
    {"H", "High", "It can be stopped completely, or its most important part can."},
    {"L", "Low", "It becomes slower or is interrupted at times, but keeps working."},
    {"N", "None", "It keeps working as before."}};

static const CvssValueType cvss_v40_SC[] = {
    {"H", "High", "All data of another system can be read, or data whose disclosure does serious harm."},
    {"L", "Low", "Some data of another system can be read, but the attacker does not choose which."},
    {"N", "None", "No data of other systems can be read."}};

static const CvssValueType cvss_v40_SI[] = {
    {"H", "High", "All data of another system can be changed, or data whose change does serious harm."},
    {"L", "Low", "Some data of another system can be changed, without direct serious harm."},
    {"N", "None", "No data of other systems can be changed."}};

static const CvssValueType cvss_v40_SA[] = {
    {"H", "High", "Another system can be stopped completely, or its most important part can."},
    {"L", "Low", "Another system becomes slower or is interrupted at times."},
    {"N", "None", "Other systems keep working as before."}};

static const CvssValueType cvss_v40_E[] = {
    {"X", "Not defined", "The score assumes Attacked."},
    {"A", "Attacked", "Attacks were reported, or a ready-made exploit is available."},
    {"P", "Proof of concept", "A proof of concept is public, and no attack was reported."},
    {"U", "Unreported", "Neither a proof of concept nor an attack is known."}};

static const CvssValueType cvss_v40_CR[] = {
    {"X", "Not defined", "It counts as High."},
    {"H", "High", "A loss of confidentiality can be catastrophic for the organisation."},
    {"M", "Medium", "A loss of confidentiality has serious effects on the organisation."},
    {"L", "Low", "A loss of confidentiality has only limited effects on the organisation."}};

static const CvssValueType cvss_v40_IR[] = {
    {"X", "Not defined", "It counts as High."},
    {"H", "High", "A loss of integrity can be catastrophic for the organisation."},
    {"M", "Medium", "A loss of integrity has serious effects on the organisation."},
    {"L", "Low", "A loss of integrity has only limited effects on the organisation."}};

static const CvssValueType cvss_v40_AR[] = {
    {"X", "Not defined", "It counts as High."},
    {"H", "High", "A loss of availability can be catastrophic for the organisation."},
    {"M", "Medium", "A loss of availability has serious effects on the organisation."},
    {"L", "Low", "A loss of availability has only limited effects on the organisation."}};

static const CvssValueType cvss_v40_MAV[] = {
    {"X", "Not defined", "The same as AV."},
    {"N", "Network", "The attack works over a network, across routers."},
    {"A", "Adjacent", "On the same link, in radio range, or inside the same administrative network."},
    {"L", "Local", "On the system, through an account, a console, or a file that a user opens."},
    {"P", "Physical", "The attacker must touch or handle the device."}};

static const CvssValueType cvss_v40_MAC[] = {
    {"X", "Not defined", "The same as AC."},
    {"L", "Low", "The attack can be repeated at will."},
    {"H", "High", "A security measure must be overcome, such as address randomisation or a secret."}};

static const CvssValueType cvss_v40_MAT[] = {
    {"X", "Not defined", "The same as AT."},
    {"N", "None", "The attack works against most deployments, most of the time."},
    {"P", "Present", "A race condition must be won, or the system must be configured in a certain way."}};

static const CvssValueType cvss_v40_MPR[] = {
    {"X", "Not defined", "The same as PR."},
    {"N", "None", "No account is needed."},
    {"L", "Low", "Those of an ordinary user."},
    {"H", "High", "Those of an administrator, or close to them."}};

static const CvssValueType cvss_v40_MUI[] = {
    {"X", "Not defined", "The same as UI."},
    {"N", "None", "The attacker acts alone."},
    {"P", "Passive", "A user does something ordinary, such as opening a page, unaware of the attack."},
    {"A", "Active", "A user does something unusual, such as dismissing a warning."}};

static const CvssValueType cvss_v40_MVC[] = {
    {"X", "Not defined", "The same as VC."},
    {"H", "High", "All of its data can be read, or data whose disclosure does serious harm."},
    {"L", "Low", "Some of its data can be read, but the attacker does not choose which."},
    {"N", "None", "Its data cannot be read."}};

static const CvssValueType cvss_v40_MVI[] = {
    {"X", "Not defined", "The same as VI."},
    {"H", "High", "All of its data can be changed, or data whose change does serious harm."},
    {"L", "Low", "Some data can be changed, without direct serious harm."},
    {"N", "None", "Its data cannot be changed."}};

static const CvssValueType cvss_v40_MVA[] = {
    {"X", "Not defined", "The same as VA."},
    {"H", "High", "It can be stopped completely, or its most important part can."},
    {"L", "Low", "It becomes slower or is interrupted at times, but keeps working."},
    {"N", "None", "It keeps working as before."}};

static const CvssValueType cvss_v40_MSC[] = {
    {"X", "Not defined", "The same as SC."},
    {"H", "High", "All data of another system can be read, or data whose disclosure does serious harm."},
    {"L", "Low", "Some data of another system can be read, but the attacker does not choose which."},
    {"N", "Negligible", "No data of other systems can be read, or none that matters."}};

static const CvssValueType cvss_v40_MSI[] = {
    {"X", "Not defined", "The same as SI."},
    {"S", "Safety", "The change can injure or kill people."},
    {"H", "High", "All data of another system can be changed, or data whose change does serious harm."},
    {"L", "Low", "Some data of another system can be changed, without direct serious harm."},
    {"N", "Negligible", "No data of other systems can be changed, or none that matters."}};

static const CvssValueType cvss_v40_MSA[] = {
    {"X", "Not defined", "The same as SA."},
    {"S", "Safety", "The outage can injure or kill people."},
    {"H", "High", "Another system can be stopped completely, or its most important part can."},
    {"L", "Low", "Another system becomes slower or is interrupted at times."},
    {"N", "Negligible", "Other systems keep working as before, or nearly so."}};

static const CvssValueType cvss_v40_S[] = {
    {"X", "Not defined", "The provider does not say."},
    {"P", "Present", "Injuries can be more than negligible (IEC 61508: marginal or worse)."},
    {"N", "Negligible", "Injuries are negligible at most (IEC 61508)."}};

static const CvssValueType cvss_v40_AU[] = {
    {"X", "Not defined", "The provider does not say."},
    {"N", "No", "Some step of the attack cannot be automated."},
    {"Y", "Yes", "Every step can be automated, from reconnaissance to exploitation, as a worm does."}};

static const CvssValueType cvss_v40_R[] = {
    {"X", "Not defined", "The provider does not say."},
    {"A", "Automatic", "It recovers by itself."},
    {"U", "User", "Somebody has to restore it."},
    {"I", "Irrecoverable", "It cannot be restored."}};

static const CvssValueType cvss_v40_V[] = {
    {"X", "Not defined", "The provider does not say."},
    {"D", "Diffuse", "Few resources, such as one person's device."},
    {"C", "Concentrated", "Many resources, such as those of a central server."}};

static const CvssValueType cvss_v40_RE[] = {
    {"X", "Not defined", "The provider does not say."},
    {"L", "Low", "A change of settings, or an automatic update."},
    {"M", "Moderate", "An update that needs care, with a short interruption."},
    {"H", "High", "A difficult or long change, or a replacement of hardware."}};

static const CvssValueType cvss_v40_U[] = {
    {"X", "Not defined", "The provider does not say."},
    {"Red", "Red", "The provider rates the urgency highest."},
    {"Amber", "Amber", "The provider rates the urgency moderate."},
    {"Green", "Green", "The provider rates the urgency reduced."},
    {"Clear", "Clear", "The provider sees no urgency: for information only."}};

static const CvssMetricType cvss_v40_types[] = {
    {"AV", "Attack Vector", "base", true,
     "Where must the attacker be?", cvss_v40_AV, 4},
    {"AC", "Attack Complexity", "base", true,
     "Must the attacker get past a defence?", cvss_v40_AC, 2},
    {"AT", "Attack Requirements", "base", true,
     "Must the system be in a certain state?", cvss_v40_AT, 2},
    {"PR", "Privileges Required", "base", true,
     "Which privileges does the attacker need beforehand?", cvss_v40_PR, 3},
    {"UI", "User Interaction", "base", true,
     "Must another person take part?", cvss_v40_UI, 3},
    {"VC", "Confidentiality Impact to the Vulnerable System", "base", true,
     "What can the attacker read?", cvss_v40_VC, 3},
    {"VI", "Integrity Impact to the Vulnerable System", "base", true,
     "What can the attacker change?", cvss_v40_VI, 3},
    {"VA", "Availability Impact to the Vulnerable System", "base", true,
     "Can the attacker stop it?", cvss_v40_VA, 3},
    {"SC", "Confidentiality Impact to the Subsequent System", "base", true,
     "What can the attacker read in other systems?", cvss_v40_SC, 3},
    {"SI", "Integrity Impact to the Subsequent System", "base", true,
     "What can the attacker change in other systems?", cvss_v40_SI, 3},
    {"SA", "Availability Impact to the Subsequent System", "base", true,
     "Can the attacker stop other systems?", cvss_v40_SA, 3},
    {"E", "Exploit Maturity", "threat", false,
     "Is the vulnerability exploited?", cvss_v40_E, 4},
    {"CR", "Confidentiality Requirement", "environmental", false,
     "How bad is a loss of confidentiality?", cvss_v40_CR, 4},
    {"IR", "Integrity Requirement", "environmental", false,
     "How bad is a loss of integrity?", cvss_v40_IR, 4},
    {"AR", "Availability Requirement", "environmental", false,
     "How bad is a loss of availability?", cvss_v40_AR, 4},
    {"MAV", "Modified Attack Vector", "environmental", false,
     "Where must the attacker be?", cvss_v40_MAV, 5},
    {"MAC", "Modified Attack Complexity", "environmental", false,
     "Must the attacker get past a defence?", cvss_v40_MAC, 3},
    {"MAT", "Modified Attack Requirements", "environmental", false,
     "Must the system be in a certain state?", cvss_v40_MAT, 3},
    {"MPR", "Modified Privileges Required", "environmental", false,
     "Which privileges does the attacker need beforehand?", cvss_v40_MPR, 4},
    {"MUI", "Modified User Interaction", "environmental", false,
     "Must another person take part?", cvss_v40_MUI, 4},
    {"MVC", "Modified Confidentiality Impact to the Vulnerable System", "environmental", false,
     "What can the attacker read?", cvss_v40_MVC, 4},
    {"MVI", "Modified Integrity Impact to the Vulnerable System", "environmental", false,
     "What can the attacker change?", cvss_v40_MVI, 4},
    {"MVA", "Modified Availability Impact to the Vulnerable System", "environmental", false,
     "Can the attacker stop it?", cvss_v40_MVA, 4},
    {"MSC", "Modified Confidentiality Impact to the Subsequent System", "environmental", false,
     "What can the attacker read in other systems?", cvss_v40_MSC, 4},
    {"MSI", "Modified Integrity Impact to the Subsequent System", "environmental", false,
     "What can the attacker change in other systems?", cvss_v40_MSI, 5},
    {"MSA", "Modified Availability Impact to the Subsequent System", "environmental", false,
     "Can the attacker stop other systems?", cvss_v40_MSA, 5},
    {"S", "Safety", "supplemental", false,
     "Can people be injured?", cvss_v40_S, 3},
    {"AU", "Automatable", "supplemental", false,
     "Can attacks on many targets be automated?", cvss_v40_AU, 3},
    {"R", "Recovery", "supplemental", false,
     "How does the system recover?", cvss_v40_R, 4},
    {"V", "Value Density", "supplemental", false,
     "How many resources does one attack reach?", cvss_v40_V, 3},
    {"RE", "Vulnerability Response Effort", "supplemental", false,
     "How much effort is the response?", cvss_v40_RE, 4},
    {"U", "Provider Urgency", "supplemental", false,
     "How urgent is it for the provider?", cvss_v40_U, 5}};

/*
 * The metrics of a version (20, 30, 31 or 40), in the order in which a vector prints them, and how many there are. NULL, and
 * none, for another number.
 */
static inline const CvssMetricType *cvss_metric_types(int32_t version, size_t *count)
{
    switch (version) {
    case 20:
        *count = sizeof cvss_v20_types / sizeof *cvss_v20_types;
        return cvss_v20_types;
    case 30:
    case 31:
        *count = sizeof cvss_v31_types / sizeof *cvss_v31_types;
        return cvss_v31_types;
    case 40:
        *count = sizeof cvss_v40_types / sizeof *cvss_v40_types;
        return cvss_v40_types;
    default:
        *count = 0;
        return NULL;
    }
}

#ifdef __cplusplus
}
#endif

#endif
