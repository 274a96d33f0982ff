//! The metrics of each version. Written by bindings/tables.py from bindings/metrics.json.

use crate::words::{metric, value, MetricType};
use crate::Group::{Base, Environmental, Supplemental, Temporal, Threat};

#[rustfmt::skip]
pub(crate) const V20: &[MetricType] = &[
    metric("AV", "Access Vector", Base, true, "Where must the attacker be?", &[
        value("N", "Network", "The attack works over a network."),
        value("A", "Adjacent network", "On the same local network, or in radio range."),
        value("L", "Local", "On the system, through an account, or at the device."),
    ]),
    metric("AC", "Access Complexity", Base, true, "How special must the conditions be?", &[
        value("L", "Low", "The attack works against the default configuration."),
        value("M", "Medium", "The configuration is not the default, or information must be gathered first."),
        value("H", "High", "There is a narrow race, a rare configuration, or victims who would easily notice."),
    ]),
    metric("Au", "Authentication", Base, true, "How often must the attacker log in?", &[
        value("N", "None", "The attacker need not log in."),
        value("S", "Single", "The attacker must log in once."),
        value("M", "Multiple", "The attacker must log in twice or more, even with the same credentials."),
    ]),
    metric("C", "Confidentiality Impact", Base, true, "What can the attacker read?", &[
        value("C", "Complete", "All data on the system can be read."),
        value("P", "Partial", "Much data can be read, but the attacker does not choose which."),
        value("N", "None", "No data can be read."),
    ]),
    metric("I", "Integrity Impact", Base, true, "What can the attacker change?", &[
        value("C", "Complete", "All data on the system can be changed."),
        value("P", "Partial", "Some data can be changed, but the attacker does not choose which."),
        value("N", "None", "No data can be changed."),
    ]),
    metric("A", "Availability Impact", Base, true, "Can the attacker stop it?", &[
        value("C", "Complete", "The system can be stopped completely."),
        value("P", "Partial", "It becomes slower or is interrupted at times."),
        value("N", "None", "It keeps working as before."),
    ]),
    metric("E", "Exploitability", Temporal, false, "How mature is the exploit code?", &[
        value("ND", "Not defined", "It counts as High."),
        value("H", "High", "Autonomous exploit code exists, or none is needed."),
        value("F", "Functional", "Working exploit code exists."),
        value("POC", "Proof of concept", "A proof of concept exists, which needs work before it can be used in an attack."),
        value("U", "Unproven", "No exploit code is known, or the attack is theoretical."),
    ]),
    metric("RL", "Remediation Level", Temporal, false, "Is there a fix?", &[
        value("ND", "Not defined", "It counts as Unavailable."),
        value("U", "Unavailable", "There is no fix, or it cannot be applied."),
        value("W", "Workaround", "There is an unofficial workaround."),
        value("TF", "Temporary fix", "There is an official but temporary fix."),
        value("OF", "Official fix", "The vendor has a complete fix."),
    ]),
    metric("RC", "Report Confidence", Temporal, false, "How certain is the report?", &[
        value("ND", "Not defined", "It counts as Confirmed."),
        value("C", "Confirmed", "The vendor has confirmed it, or it is exploited."),
        value("UR", "Uncorroborated", "Several unofficial sources report it, and may disagree."),
        value("UC", "Unconfirmed", "One source reports it, or several that contradict each other."),
    ]),
    metric("CDP", "Collateral Damage Potential", Environmental, false, "What else can be lost: lives, assets, revenue?", &[
        value("ND", "Not defined", "It counts as None."),
        value("N", "None", "Nothing else can be lost."),
        value("L", "Low", "Little can be lost."),
        value("LM", "Low to medium", "A moderate amount can be lost."),
        value("MH", "Medium to high", "A significant amount can be lost."),
        value("H", "High", "Losses can be catastrophic."),
    ]),
    metric("TD", "Target Distribution", Environmental, false, "How many of your systems are targets?", &[
        value("ND", "Not defined", "It counts as High."),
        value("N", "None", "At most systems in a laboratory are targets."),
        value("L", "Low", "Up to a quarter of them are targets."),
        value("M", "Medium", "A quarter to three quarters of them are targets."),
        value("H", "High", "More than three quarters of them are targets."),
    ]),
    metric("CR", "Confidentiality Requirement", Environmental, false, "How bad is a loss of confidentiality?", &[
        value("ND", "Not defined", "It counts as Medium."),
        value("L", "Low", "A loss of confidentiality has only limited effects on the organisation."),
        value("M", "Medium", "A loss of confidentiality has serious effects on the organisation."),
        value("H", "High", "A loss of confidentiality can be catastrophic for the organisation."),
    ]),
    metric("IR", "Integrity Requirement", Environmental, false, "How bad is a loss of integrity?", &[
        value("ND", "Not defined", "It counts as Medium."),
        value("L", "Low", "A loss of integrity has only limited effects on the organisation."),
        value("M", "Medium", "A loss of integrity has serious effects on the organisation."),
        value("H", "High", "A loss of integrity can be catastrophic for the organisation."),
    ]),
    metric("AR", "Availability Requirement", Environmental, false, "How bad is a loss of availability?", &[
        value("ND", "Not defined", "It counts as Medium."),
        value("L", "Low", "A loss of availability has only limited effects on the organisation."),
        value("M", "Medium", "A loss of availability has serious effects on the organisation."),
        value("H", "High", "A loss of availability can be catastrophic for the organisation."),
    ]),
];

#[rustfmt::skip]
pub(crate) const V31: &[MetricType] = &[
    metric("AV", "Attack Vector", Base, true, "Where must the attacker be?", &[
        value("N", "Network", "The attack works over a network, across routers."),
        value("A", "Adjacent", "On the same link, in radio range, or inside the same administrative network."),
        value("L", "Local", "On the system, through an account, a console, or a file that a user opens."),
        value("P", "Physical", "The attacker must touch or handle the device."),
    ]),
    metric("AC", "Attack Complexity", Base, true, "Does success depend on conditions that the attacker does not control?", &[
        value("L", "Low", "The attack can be repeated at will."),
        value("H", "High", "The attacker must first gather knowledge, prepare the target, or intercept traffic."),
    ]),
    metric("PR", "Privileges Required", Base, true, "Which privileges does the attacker need beforehand?", &[
        value("N", "None", "No account is needed."),
        value("L", "Low", "Those of an ordinary user."),
        value("H", "High", "Those of an administrator, or close to them."),
    ]),
    metric("UI", "User Interaction", Base, true, "Must another person take part?", &[
        value("N", "None", "The attacker acts alone."),
        value("R", "Required", "A user must do something first, such as opening a file."),
    ]),
    metric("S", "Scope", Base, true, "Does the impact cross a security boundary?", &[
        value("U", "Unchanged", "The impact stays within the security authority of the vulnerable component."),
        value("C", "Changed", "The impact reaches resources of another security authority."),
    ]),
    metric("C", "Confidentiality Impact", Base, true, "What can the attacker read?", &[
        value("H", "High", "All data can be read, or data whose disclosure does serious harm."),
        value("L", "Low", "Some data can be read, but the attacker does not choose which."),
        value("N", "None", "No data can be read."),
    ]),
    metric("I", "Integrity Impact", Base, true, "What can the attacker change?", &[
        value("H", "High", "All data can be changed, or data whose change does serious harm."),
        value("L", "Low", "Some data can be changed, without direct serious harm."),
        value("N", "None", "No data can be changed."),
    ]),
    metric("A", "Availability Impact", Base, true, "Can the attacker stop it?", &[
        value("H", "High", "It can be stopped completely, or its most important part can."),
        value("L", "Low", "It becomes slower or is interrupted at times, but keeps working."),
        value("N", "None", "It keeps working as before."),
    ]),
    metric("E", "Exploit Code Maturity", Temporal, false, "How mature is the exploit code?", &[
        value("X", "Not defined", "It counts as High."),
        value("H", "High", "Autonomous exploit code exists, or none is needed."),
        value("F", "Functional", "Working exploit code exists."),
        value("P", "Proof of concept", "A proof of concept exists, which needs work before it can be used in an attack."),
        value("U", "Unproven", "No exploit code is known, or the attack is theoretical."),
    ]),
    metric("RL", "Remediation Level", Temporal, false, "Is there a fix?", &[
        value("X", "Not defined", "It counts as Unavailable."),
        value("U", "Unavailable", "There is no fix, or it cannot be applied."),
        value("W", "Workaround", "There is an unofficial workaround."),
        value("T", "Temporary fix", "There is an official but temporary fix."),
        value("O", "Official fix", "The vendor has a complete fix."),
    ]),
    metric("RC", "Report Confidence", Temporal, false, "How certain is the report?", &[
        value("X", "Not defined", "It counts as Confirmed."),
        value("C", "Confirmed", "It was reproduced, or the vendor has confirmed it."),
        value("R", "Reasonable", "Much is known, but the cause is not fully certain."),
        value("U", "Unknown", "There are reports, but the cause is unknown."),
    ]),
    metric("CR", "Confidentiality Requirement", Environmental, false, "How bad is a loss of confidentiality?", &[
        value("X", "Not defined", "It counts as Medium."),
        value("H", "High", "A loss of confidentiality can be catastrophic for the organisation."),
        value("M", "Medium", "A loss of confidentiality has serious effects on the organisation."),
        value("L", "Low", "A loss of confidentiality has only limited effects on the organisation."),
    ]),
    metric("IR", "Integrity Requirement", Environmental, false, "How bad is a loss of integrity?", &[
        value("X", "Not defined", "It counts as Medium."),
        value("H", "High", "A loss of integrity can be catastrophic for the organisation."),
        value("M", "Medium", "A loss of integrity has serious effects on the organisation."),
        value("L", "Low", "A loss of integrity has only limited effects on the organisation."),
    ]),
    metric("AR", "Availability Requirement", Environmental, false, "How bad is a loss of availability?", &[
        value("X", "Not defined", "It counts as Medium."),
        value("H", "High", "A loss of availability can be catastrophic for the organisation."),
        value("M", "Medium", "A loss of availability has serious effects on the organisation."),
        value("L", "Low", "A loss of availability has only limited effects on the organisation."),
    ]),
    metric("MAV", "Modified Attack Vector", Environmental, false, "Where must the attacker be?", &[
        value("X", "Not defined", "The same as AV."),
        value("N", "Network", "The attack works over a network, across routers."),
        value("A", "Adjacent", "On the same link, in radio range, or inside the same administrative network."),
        value("L", "Local", "On the system, through an account, a console, or a file that a user opens."),
        value("P", "Physical", "The attacker must touch or handle the device."),
    ]),
    metric("MAC", "Modified Attack Complexity", Environmental, false, "Does success depend on conditions that the attacker does not control?", &[
        value("X", "Not defined", "The same as AC."),
        value("L", "Low", "The attack can be repeated at will."),
        value("H", "High", "The attacker must first gather knowledge, prepare the target, or intercept traffic."),
    ]),
    metric("MPR", "Modified Privileges Required", Environmental, false, "Which privileges does the attacker need beforehand?", &[
        value("X", "Not defined", "The same as PR."),
        value("N", "None", "No account is needed."),
        value("L", "Low", "Those of an ordinary user."),
        value("H", "High", "Those of an administrator, or close to them."),
    ]),
    metric("MUI", "Modified User Interaction", Environmental, false, "Must another person take part?", &[
        value("X", "Not defined", "The same as UI."),
        value("N", "None", "The attacker acts alone."),
        value("R", "Required", "A user must do something first, such as opening a file."),
    ]),
    metric("MS", "Modified Scope", Environmental, false, "Does the impact cross a security boundary?", &[
        value("X", "Not defined", "The same as S."),
        value("U", "Unchanged", "The impact stays within the security authority of the vulnerable component."),
        value("C", "Changed", "The impact reaches resources of another security authority."),
    ]),
    metric("MC", "Modified Confidentiality", Environmental, false, "What can the attacker read?", &[
        value("X", "Not defined", "The same as C."),
        value("H", "High", "All data can be read, or data whose disclosure does serious harm."),
        value("L", "Low", "Some data can be read, but the attacker does not choose which."),
        value("N", "None", "No data can be read."),
    ]),
    metric("MI", "Modified Integrity", Environmental, false, "What can the attacker change?", &[
        value("X", "Not defined", "The same as I."),
        value("H", "High", "All data can be changed, or data whose change does serious harm."),
        value("L", "Low", "Some data can be changed, without direct serious harm."),
        value("N", "None", "No data can be changed."),
    ]),
    metric("MA", "Modified Availability", Environmental, false, "Can the attacker stop it?", &[
        value("X", "Not defined", "The same as A."),
        value("H", "High", "It can be stopped completely, or its most important part can."),
        value("L", "Low", "It becomes slower or is interrupted at times, but keeps working."),
        value("N", "None", "It keeps working as before."),
    ]),
];

#[rustfmt::skip]
pub(crate) const V40: &[MetricType] = &[
    metric("AV", "Attack Vector", Base, true, "Where must the attacker be?", &[
        value("N", "Network", "The attack works over a network, across routers."),
        value("A", "Adjacent", "On the same link, in radio range, or inside the same administrative network."),
        value("L", "Local", "On the system, through an account, a console, or a file that a user opens."),
        value("P", "Physical", "The attacker must touch or handle the device."),
    ]),
    metric("AC", "Attack Complexity", Base, true, "Must the attacker get past a defence?", &[
        value("L", "Low", "The attack can be repeated at will."),
        value("H", "High", "A security measure must be overcome, such as address randomisation or a secret."),
    ]),
    metric("AT", "Attack Requirements", Base, true, "Must the system be in a certain state?", &[
        value("N", "None", "The attack works against most deployments, most of the time."),
        value("P", "Present", "A race condition must be won, or the system must be configured in a certain way."),
    ]),
    metric("PR", "Privileges Required", Base, true, "Which privileges does the attacker need beforehand?", &[
        value("N", "None", "No account is needed."),
        value("L", "Low", "Those of an ordinary user."),
        value("H", "High", "Those of an administrator, or close to them."),
    ]),
    metric("UI", "User Interaction", Base, true, "Must another person take part?", &[
        value("N", "None", "The attacker acts alone."),
        value("P", "Passive", "A user does something ordinary, such as opening a page, unaware of the attack."),
        value("A", "Active", "A user does something unusual, such as dismissing a warning."),
    ]),
    metric("VC", "Confidentiality Impact to the Vulnerable System", Base, true, "What can the attacker read?", &[
        value("H", "High", "All of its data can be read, or data whose disclosure does serious harm."),
        value("L", "Low", "Some of its data can be read, but the attacker does not choose which."),
        value("N", "None", "Its data cannot be read."),
    ]),
    metric("VI", "Integrity Impact to the Vulnerable System", Base, true, "What can the attacker change?", &[
        value("H", "High", "All of its data can be changed, or data whose change does serious harm."),
        value("L", "Low", "Some data can be changed, without direct serious harm."),
        value("N", "None", "Its data cannot be changed."),
    ]),
    metric("VA", "Availability Impact to the Vulnerable System", Base, true, "Can the attacker stop it?", &[
        value("H", "High", "It can be stopped completely, or its most important part can."),
        value("L", "Low", "It becomes slower or is interrupted at times, but keeps working."),
        value("N", "None", "It keeps working as before."),
    ]),
    metric("SC", "Confidentiality Impact to the Subsequent System", Base, true, "What can the attacker read in other systems?", &[
        value("H", "High", "All data of another system can be read, or data whose disclosure does serious harm."),
        value("L", "Low", "Some data of another system can be read, but the attacker does not choose which."),
        value("N", "None", "No data of other systems can be read."),
    ]),
    metric("SI", "Integrity Impact to the Subsequent System", Base, true, "What can the attacker change in other systems?", &[
        value("H", "High", "All data of another system can be changed, or data whose change does serious harm."),
        value("L", "Low", "Some data of another system can be changed, without direct serious harm."),
        value("N", "None", "No data of other systems can be changed."),
    ]),
    metric("SA", "Availability Impact to the Subsequent System", Base, true, "Can the attacker stop other systems?", &[
        value("H", "High", "Another system can be stopped completely, or its most important part can."),
        value("L", "Low", "Another system becomes slower or is interrupted at times."),
        value("N", "None", "Other systems keep working as before."),
    ]),
    metric("E", "Exploit Maturity", Threat, false, "Is the vulnerability exploited?", &[
        value("X", "Not defined", "The score assumes Attacked."),
        value("A", "Attacked", "Attacks were reported, or a ready-made exploit is available."),
        value("P", "Proof of concept", "A proof of concept is public, and no attack was reported."),
        value("U", "Unreported", "Neither a proof of concept nor an attack is known."),
    ]),
    metric("CR", "Confidentiality Requirement", Environmental, false, "How bad is a loss of confidentiality?", &[
        value("X", "Not defined", "It counts as High."),
        value("H", "High", "A loss of confidentiality can be catastrophic for the organisation."),
        value("M", "Medium", "A loss of confidentiality has serious effects on the organisation."),
        value("L", "Low", "A loss of confidentiality has only limited effects on the organisation."),
    ]),
    metric("IR", "Integrity Requirement", Environmental, false, "How bad is a loss of integrity?", &[
        value("X", "Not defined", "It counts as High."),
        value("H", "High", "A loss of integrity can be catastrophic for the organisation."),
        value("M", "Medium", "A loss of integrity has serious effects on the organisation."),
        value("L", "Low", "A loss of integrity has only limited effects on the organisation."),
    ]),
    metric("AR", "Availability Requirement", Environmental, false, "How bad is a loss of availability?", &[
        value("X", "Not defined", "It counts as High."),
        value("H", "High", "A loss of availability can be catastrophic for the organisation."),
        value("M", "Medium", "A loss of availability has serious effects on the organisation."),
        value("L", "Low", "A loss of availability has only limited effects on the organisation."),
    ]),
    metric("MAV", "Modified Attack Vector", Environmental, false, "Where must the attacker be?", &[
        value("X", "Not defined", "The same as AV."),
        value("N", "Network", "The attack works over a network, across routers."),
        value("A", "Adjacent", "On the same link, in radio range, or inside the same administrative network."),
        value("L", "Local", "On the system, through an account, a console, or a file that a user opens."),
        value("P", "Physical", "The attacker must touch or handle the device."),
    ]),
    metric("MAC", "Modified Attack Complexity", Environmental, false, "Must the attacker get past a defence?", &[
        value("X", "Not defined", "The same as AC."),
        value("L", "Low", "The attack can be repeated at will."),
        value("H", "High", "A security measure must be overcome, such as address randomisation or a secret."),
    ]),
    metric("MAT", "Modified Attack Requirements", Environmental, false, "Must the system be in a certain state?", &[
        value("X", "Not defined", "The same as AT."),
        value("N", "None", "The attack works against most deployments, most of the time."),
        value("P", "Present", "A race condition must be won, or the system must be configured in a certain way."),
    ]),
    metric("MPR", "Modified Privileges Required", Environmental, false, "Which privileges does the attacker need beforehand?", &[
        value("X", "Not defined", "The same as PR."),
        value("N", "None", "No account is needed."),
        value("L", "Low", "Those of an ordinary user."),
        value("H", "High", "Those of an administrator, or close to them."),
    ]),
    metric("MUI", "Modified User Interaction", Environmental, false, "Must another person take part?", &[
        value("X", "Not defined", "The same as UI."),
        value("N", "None", "The attacker acts alone."),
        value("P", "Passive", "A user does something ordinary, such as opening a page, unaware of the attack."),
        value("A", "Active", "A user does something unusual, such as dismissing a warning."),
    ]),
    metric("MVC", "Modified Confidentiality Impact to the Vulnerable System", Environmental, false, "What can the attacker read?", &[
        value("X", "Not defined", "The same as VC."),
        value("H", "High", "All of its data can be read, or data whose disclosure does serious harm."),
        value("L", "Low", "Some of its data can be read, but the attacker does not choose which."),
        value("N", "None", "Its data cannot be read."),
    ]),
    metric("MVI", "Modified Integrity Impact to the Vulnerable System", Environmental, false, "What can the attacker change?", &[
        value("X", "Not defined", "The same as VI."),
        value("H", "High", "All of its data can be changed, or data whose change does serious harm."),
        value("L", "Low", "Some data can be changed, without direct serious harm."),
        value("N", "None", "Its data cannot be changed."),
    ]),
    metric("MVA", "Modified Availability Impact to the Vulnerable System", Environmental, false, "Can the attacker stop it?", &[
        value("X", "Not defined", "The same as VA."),
        value("H", "High", "It can be stopped completely, or its most important part can."),
        value("L", "Low", "It becomes slower or is interrupted at times, but keeps working."),
        value("N", "None", "It keeps working as before."),
    ]),
    metric("MSC", "Modified Confidentiality Impact to the Subsequent System", Environmental, false, "What can the attacker read in other systems?", &[
        value("X", "Not defined", "The same as SC."),
        value("H", "High", "All data of another system can be read, or data whose disclosure does serious harm."),
        value("L", "Low", "Some data of another system can be read, but the attacker does not choose which."),
        value("N", "Negligible", "No data of other systems can be read, or none that matters."),
    ]),
    metric("MSI", "Modified Integrity Impact to the Subsequent System", Environmental, false, "What can the attacker change in other systems?", &[
        value("X", "Not defined", "The same as SI."),
        value("S", "Safety", "The change can injure or kill people."),
        value("H", "High", "All data of another system can be changed, or data whose change does serious harm."),
        value("L", "Low", "Some data of another system can be changed, without direct serious harm."),
        value("N", "Negligible", "No data of other systems can be changed, or none that matters."),
    ]),
    metric("MSA", "Modified Availability Impact to the Subsequent System", Environmental, false, "Can the attacker stop other systems?", &[
        value("X", "Not defined", "The same as SA."),
        value("S", "Safety", "The outage can injure or kill people."),
        value("H", "High", "Another system can be stopped completely, or its most important part can."),
        value("L", "Low", "Another system becomes slower or is interrupted at times."),
        value("N", "Negligible", "Other systems keep working as before, or nearly so."),
    ]),
    metric("S", "Safety", Supplemental, false, "Can people be injured?", &[
        value("X", "Not defined", "The provider does not say."),
        value("P", "Present", "Injuries can be more than negligible (IEC 61508: marginal or worse)."),
        value("N", "Negligible", "Injuries are negligible at most (IEC 61508)."),
    ]),
    metric("AU", "Automatable", Supplemental, false, "Can attacks on many targets be automated?", &[
        value("X", "Not defined", "The provider does not say."),
        value("N", "No", "Some step of the attack cannot be automated."),
        value("Y", "Yes", "Every step can be automated, from reconnaissance to exploitation, as a worm does."),
    ]),
    metric("R", "Recovery", Supplemental, false, "How does the system recover?", &[
        value("X", "Not defined", "The provider does not say."),
        value("A", "Automatic", "It recovers by itself."),
        value("U", "User", "Somebody has to restore it."),
        value("I", "Irrecoverable", "It cannot be restored."),
    ]),
    metric("V", "Value Density", Supplemental, false, "How many resources does one attack reach?", &[
        value("X", "Not defined", "The provider does not say."),
        value("D", "Diffuse", "Few resources, such as one person's device."),
        value("C", "Concentrated", "Many resources, such as those of a central server."),
    ]),
    metric("RE", "Vulnerability Response Effort", Supplemental, false, "How much effort is the response?", &[
        value("X", "Not defined", "The provider does not say."),
        value("L", "Low", "A change of settings, or an automatic update."),
        value("M", "Moderate", "An update that needs care, with a short interruption."),
        value("H", "High", "A difficult or long change, or a replacement of hardware."),
    ]),
    metric("U", "Provider Urgency", Supplemental, false, "How urgent is it for the provider?", &[
        value("X", "Not defined", "The provider does not say."),
        value("Red", "Red", "The provider rates the urgency highest."),
        value("Amber", "Amber", "The provider rates the urgency moderate."),
        value("Green", "Green", "The provider rates the urgency reduced."),
        value("Clear", "Clear", "The provider sees no urgency: for information only."),
    ]),
];
