//! The metrics of the crate, by their public paths: the values in their order, how they are spelled, and
//! their weights by the tables of FIRST's documents.

// Weights are compared as they are written.
#![allow(clippy::float_cmp)]

use cvss::{v3, v4};

/// Values in their order, each with its spelling and weight; a scope has none, which -1 stands for.
macro_rules! weighed {
    ($version:ident: $($group:ident $name:ident $kind:ident { $($value:ident $spelling:literal $weight:literal),+ })+) => {
        $({
            use cvss::$version::metric::$group::$name;
            use cvss::$version::{Metric, MetricType};
            let values = [$(($name::$value, $spelling, $weight)),+];
            for (value, spelling, weight) in values {
                assert_eq!(value.as_str(), spelling);
                assert_eq!(spelling.parse::<$name>(), Ok(value));
                assert_eq!(value.to_string(), format!("{}:{spelling}", $name::name()));
                assert!(weight == -1.0 || value.score() == weight, "{value}");
            }
            assert!(values.windows(2).all(|pair| pair[0].0 < pair[1].0));
            assert_eq!(($name::TYPE, $name::name()), (MetricType::$kind, stringify!($kind)));
            assert!("Z".parse::<$name>().is_err());
        })+
    };
}

/// Values in their order, each with its spelling, and the default.
macro_rules! spelled {
    ($($group:ident $name:ident $kind:ident $default:ident { $($value:ident $spelling:literal),+ })+) => {
        $({
            use v4::metric::$group::$name;
            use v4::metric::{Metric, MetricType};
            let values = [$(($name::$value, $spelling)),+];
            for (value, spelling) in values {
                assert_eq!(value.as_str(), spelling);
                assert_eq!(spelling.parse::<$name>(), Ok(value));
                assert_eq!(spelling.to_ascii_uppercase().parse::<$name>(), Ok(value));
                assert_eq!(value.to_string(), format!("{}:{spelling}", $name::name()));
            }
            assert!(values.windows(2).all(|pair| pair[0].0 < pair[1].0));
            assert_eq!(($name::TYPE, $name::name()), (MetricType::$kind, stringify!($kind)));
            assert_eq!($name::default(), $name::$default);
            assert!("Z".parse::<$name>().is_err());
        })+
    };
}

/// The metrics of a version in their order, with their names in words.
macro_rules! described {
    ($version:ident: $($kind:ident $description:literal)+) => {
        use cvss::$version::MetricType;
        let types = [$((MetricType::$kind, stringify!($kind), $description)),+];
        for (kind, name, description) in types {
            assert_eq!((kind.name(), kind.description()), (name, description));
            assert_eq!((kind.to_string().as_str(), name.parse()), (name, Ok(kind)));
        }
        assert!(types.windows(2).all(|pair| pair[0].0 < pair[1].0));
    };
}

#[test]
fn metrics_of_v2_have_their_values_and_weights() {
    weighed! {
        v2:
        base AvailabilityImpact A { None "N" 0.0, Partial "P" 0.275, Complete "C" 0.66 }
        base AccessComplexity AC { High "H" 0.35, Medium "M" 0.61, Low "L" 0.71 }
        base Authentication Au { Multiple "M" 0.45, Single "S" 0.56, None "N" 0.704 }
        base AccessVector AV { Local "L" 0.395, AdjacentNetwork "A" 0.646, Network "N" 1.0 }
        base ConfidentialityImpact C { None "N" 0.0, Partial "P" 0.275, Complete "C" 0.66 }
        base IntegrityImpact I { None "N" 0.0, Partial "P" 0.275, Complete "C" 0.66 }
        temporal Exploitability E {
            Unproven "U" 0.85, ProofOfConcept "POC" 0.9, Functional "F" 0.95, High "H" 1.0,
            NotDefined "ND" 1.0
        }
        temporal ReportConfidence RC {
            Unconfirmed "UC" 0.9, Uncorroborated "UR" 0.95, Confirmed "C" 1.0, NotDefined "ND" 1.0
        }
        temporal RemediationLevel RL {
            OfficialFix "OF" 0.87, TemporaryFix "TF" 0.9, Workaround "W" 0.95, Unavailable "U" 1.0,
            NotDefined "ND" 1.0
        }
        environmental AvailabilityRequirement AR {
            Low "L" 0.5, Medium "M" 1.0, High "H" 1.51, NotDefined "ND" 1.0
        }
        environmental CollateralDamagePotential CDP {
            None "N" 0.0, Low "L" 0.1, LowMedium "LM" 0.3, MediumHigh "MH" 0.4, High "H" 0.5,
            NotDefined "ND" 0.0
        }
        environmental ConfidentialityRequirement CR {
            Low "L" 0.5, Medium "M" 1.0, High "H" 1.51, NotDefined "ND" 1.0
        }
        environmental IntegrityRequirement IR {
            Low "L" 0.5, Medium "M" 1.0, High "H" 1.51, NotDefined "ND" 1.0
        }
        environmental TargetDistribution TD {
            None "N" 0.0, Low "L" 0.25, Medium "M" 0.75, High "H" 1.0, NotDefined "ND" 1.0
        }
    }
}

#[test]
fn metrics_of_v3_have_their_values_and_weights() {
    weighed! {
        v3:
        base Availability A { None "N" 0.0, Low "L" 0.22, High "H" 0.56 }
        base AttackComplexity AC { High "H" 0.44, Low "L" 0.77 }
        base AttackVector AV {
            Physical "P" 0.2, Local "L" 0.55, Adjacent "A" 0.62, Network "N" 0.85
        }
        base Confidentiality C { None "N" 0.0, Low "L" 0.22, High "H" 0.56 }
        base Integrity I { None "N" 0.0, Low "L" 0.22, High "H" 0.56 }
        base PrivilegesRequired PR { High "H" 0.27, Low "L" 0.62, None "N" 0.85 }
        base Scope S { Unchanged "U" -1.0, Changed "C" -1.0 }
        base UserInteraction UI { Required "R" 0.62, None "N" 0.85 }
        temporal ExploitCodeMaturity E {
            NotDefined "X" 1.0, High "H" 1.0, Functional "F" 0.97, ProofOfConcept "P" 0.94,
            Unproven "U" 0.91
        }
        temporal ReportConfidence RC {
            NotDefined "X" 1.0, Confirmed "C" 1.0, Reasonable "R" 0.96, Unknown "U" 0.92
        }
        temporal RemediationLevel RL {
            NotDefined "X" 1.0, Unavailable "U" 1.0, Workaround "W" 0.97, TemporaryFix "T" 0.96,
            OfficialFix "O" 0.95
        }
        environmental AvailabilityRequirement AR {
            NotDefined "X" 1.0, High "H" 1.5, Medium "M" 1.0, Low "L" 0.5
        }
        environmental ConfidentialityRequirement CR {
            NotDefined "X" 1.0, High "H" 1.5, Medium "M" 1.0, Low "L" 0.5
        }
        environmental IntegrityRequirement IR {
            NotDefined "X" 1.0, High "H" 1.5, Medium "M" 1.0, Low "L" 0.5
        }
    }
}

#[test]
fn metrics_of_v4_have_their_values() {
    spelled! {
        base AttackComplexity AC Low { High "H", Low "L" }
        base AttackRequirements AT None { Present "P", None "N" }
        base AttackVector AV Network { Physical "P", Local "L", Adjacent "A", Network "N" }
        base PrivilegesRequired PR None { High "H", Low "L", None "N" }
        base AvailabilityImpactToTheSubsequentSystem SA High { None "N", Low "L", High "H" }
        base ConfidentialityImpactToTheSubsequentSystem SC High { None "N", Low "L", High "H" }
        base IntegrityImpactToTheSubsequentSystem SI High { None "N", Low "L", High "H" }
        base UserInteraction UI None { Active "A", Passive "P", None "N" }
        base AvailabilityImpactToTheVulnerableSystem VA High { None "N", Low "L", High "H" }
        base ConfidentialityImpactToTheVulnerableSystem VC High { None "N", Low "L", High "H" }
        base IntegrityImpactToTheVulnerableSystem VI High { None "N", Low "L", High "H" }
        threat ExploitMaturity E NotDefined {
            NotDefined "X", Unreported "U", ProofOfConcept "P", Attacked "A"
        }
        environmental AvailabilityRequirements AR NotDefined {
            NotDefined "X", Low "L", Medium "M", High "H"
        }
        environmental ConfidentialityRequirements CR NotDefined {
            NotDefined "X", Low "L", Medium "M", High "H"
        }
        environmental IntegrityRequirements IR NotDefined {
            NotDefined "X", Low "L", Medium "M", High "H"
        }
        environmental ModifiedAttackComplexity MAC NotDefined { NotDefined "X", High "H", Low "L" }
        environmental ModifiedAttackRequirements MAT NotDefined {
            NotDefined "X", Present "P", None "N"
        }
        environmental ModifiedAttackVector MAV NotDefined {
            Physical "P", Local "L", Adjacent "A", Network "N", NotDefined "X"
        }
        environmental ModifiedPrivilegesRequired MPR NotDefined {
            NotDefined "X", High "H", Low "L", None "N"
        }
        environmental ModifiedAvailabilityImpactToTheSubsequentSystem MSA NotDefined {
            NotDefined "X", Negligible "N", Low "L", High "H", Safety "S"
        }
        environmental ModifiedConfidentialityImpactToTheSubsequentSystem MSC NotDefined {
            NotDefined "X", Negligible "N", Low "L", High "H"
        }
        environmental ModifiedIntegrityImpactToTheSubsequentSystem MSI NotDefined {
            NotDefined "X", Negligible "N", Low "L", High "H", Safety "S"
        }
        environmental ModifiedUserInteraction MUI NotDefined {
            NotDefined "X", Active "A", Passive "P", None "N"
        }
        environmental ModifiedAvailabilityImpactToTheVulnerableSystem MVA NotDefined {
            NotDefined "X", None "N", Low "L", High "H"
        }
        environmental ModifiedConfidentialityImpactToTheVulnerableSystem MVC NotDefined {
            NotDefined "X", None "N", Low "L", High "H"
        }
        environmental ModifiedIntegrityImpactToTheVulnerableSystem MVI NotDefined {
            NotDefined "X", None "N", Low "L", High "H"
        }
        supplemental Automatable AU NotDefined { NotDefined "X", Yes "Y", No "N" }
        supplemental Recovery R NotDefined {
            NotDefined "X", Automatic "A", User "U", Irrecoverable "I"
        }
        supplemental VulnerabilityResponseEffort RE NotDefined {
            NotDefined "X", Low "L", Moderate "M", High "H"
        }
        supplemental Safety S NotDefined { NotDefined "X", Present "P", Negligible "N" }
        supplemental ProviderUrgency U NotDefined {
            NotDefined "X", Red "Red", Amber "Amber", Green "Green", Clear "Clear"
        }
        supplemental ValueDensity V NotDefined { NotDefined "X", Diffuse "D", Concentrated "C" }
    }
}

#[test]
fn metric_types_of_v2_have_their_names() {
    described! {
        v2:
        A "Availability Impact"
        AC "Access Complexity"
        AV "Access Vector"
        Au "Authentication"
        C "Confidentiality Impact"
        I "Integrity Impact"
        E "Exploitability"
        RL "Remediation Level"
        RC "Report Confidence"
        CDP "Collateral Damage Potential"
        TD "Target Distribution"
        CR "Confidentiality Requirement"
        IR "Integrity Requirement"
        AR "Availability Requirement"
    }
}

#[test]
fn metric_types_of_v3_have_their_names() {
    described! {
        v3:
        A "Availability Impact"
        AC "Attack Complexity"
        AV "Attack Vector"
        C "Confidentiality Impact"
        I "Integrity Impact"
        PR "Privileges Required"
        S "Scope"
        UI "User Interaction"
        E "Exploit Code Maturity"
        RL "Remediation Level"
        RC "Report Confidence"
        CR "Confidentiality Requirements"
        IR "Integrity Requirements"
        AR "Availability Requirements"
        MAV "Modified Attack Vector"
        MAC "Modified Attack Complexity"
        MPR "Modified Privileges Required"
        MUI "Modified User Interaction"
        MS "Modified Scope"
        MC "Modified Confidentiality"
        MI "Modified Integrity"
        MA "Modified Availability"
    }
}

#[test]
fn metric_types_of_v4_have_their_names() {
    described! {
        v4:
        AC "Attack Complexity"
        AT "Attack Requirements"
        AV "Attack Vector"
        PR "Privileges Required"
        SA "Availability Impact to the Subsequent System"
        SC "Confidentiality Impact to the Subsequent System"
        SI "Integrity Impact to the Subsequent System"
        UI "User Interaction"
        VA "Availability Impact to the Vulnerable System"
        VC "Confidentiality Impact to the Vulnerable System"
        VI "Integrity Impact to the Vulnerable System"
        E "Exploit Maturity"
        AR "Availability Requirements"
        CR "Confidentiality Requirements"
        IR "Integrity Requirements"
        MAC "Modified Attack Complexity"
        MAT "Modified Attack Requirements"
        MAV "Modified Attack Vector"
        MPR "Modified Privileges Required"
        MSA "Modified Availability Impact to the Subsequent System"
        MSC "Modified Confidentiality Impact to the Subsequent System"
        MSI "Modified Integrity Impact to the Subsequent System"
        MUI "Modified User Interaction"
        MVA "Modified Availability Impact to the Vulnerable System"
        MVC "Modified Confidentiality Impact to the Vulnerable System"
        MVI "Modified Integrity Impact to the Vulnerable System"
        AU "Automatable"
        R "Recovery"
        RE "Vulnerability Response Effort"
        S "Safety"
        U "Provider Urgency"
        V "Value Density"
    }
}

#[test]
fn privileges_weigh_by_the_scope() {
    use v3::metric::base::PrivilegesRequired::{self, High, Low, None as NoPrivileges};
    use v3::metric::environmental::Modified;
    let weights = [
        (High, 0.5, 0.27),
        (Low, 0.68, 0.62),
        (NoPrivileges, 0.85, 0.85),
    ];
    for (value, changed, unchanged) in weights {
        assert_eq!(
            (value.scoped_score(true), value.scoped_score(false)),
            (changed, unchanged)
        );
        let other = Modified::<PrivilegesRequired>::NotDefined;
        assert_eq!(other.scoped_score(true, Some(value)), changed);
        assert_eq!(
            Modified::Modified(value).scoped_score(false, Some(High)),
            unchanged
        );
        assert_eq!(other.scoped_score(true, None), 0.0);
    }
}

#[test]
fn modified_metrics_have_the_values_of_base_metrics() {
    use v3::metric::base::{AttackVector, Scope};
    use v3::metric::environmental::{BaseMetric, Modified, ModifiedScope};
    use v3::{Metric, MetricType};
    let own = Modified::Modified(AttackVector::Local);
    assert_eq!("L".parse(), Ok(own));
    assert_eq!(
        (own.as_str(), own.to_string().as_str(), own.score()),
        ("L", "MAV:L", 0.0)
    );
    assert_eq!(
        "X".parse::<Modified<AttackVector>>(),
        Ok(Modified::NotDefined)
    );
    assert_eq!(own.modified_score(Some(AttackVector::Network)), 0.55);
    assert_eq!(
        Modified::NotDefined.modified_score(Some(AttackVector::Network)),
        0.85
    );
    assert_eq!(
        Modified::<AttackVector>::NotDefined.modified_score(None),
        0.0
    );
    assert_eq!(AttackVector::MODIFIED_TYPE, MetricType::MAV);
    assert_eq!(Modified::<AttackVector>::TYPE, MetricType::MAV);
    let error = "Q".parse::<Modified<AttackVector>>().unwrap_err();
    assert_eq!(
        error.to_string(),
        "invalid CVSSv3 AV (Attack Vector) metric: `Q`"
    );
    assert_eq!("C".parse(), Ok(ModifiedScope::Modified(Scope::Changed)));
    assert_eq!(ModifiedScope::NotDefined.to_string(), "MS:X");
    assert!(ModifiedScope::Modified(Scope::Unchanged) > ModifiedScope::NotDefined);
    assert!(Scope::Changed.is_changed() && !Scope::Unchanged.is_changed());
    assert_eq!(v3::metric::base::AttackComplexity::default().as_str(), "H");
}
