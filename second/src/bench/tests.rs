//! What is read of callgrind's messages.

use super::programs::collected;

#[test]
fn count_among_messages() {
    let messages = "==7== Callgrind, a call-graph generating cache profiler\n\
                    ==7== Command: ./bench Collected : 9\n\
                    Collected : 8\n\
                    ==7== Events    : Ir\n\
                    ==7== Collected : 45301034\n\
                    ==7== \n\
                    ==7== I   refs:      45,301,034\n";
    assert_eq!(collected(messages), Some(45_301_034));
    let with_caches = "==7== Events    : Ir Dr Dw\n==7== Collected : 700 20 3\n";
    assert_eq!(collected(with_caches), Some(700));
}

#[test]
fn no_count_among_messages() {
    for messages in [
        "",
        "Collected : 8",
        "==7== Collected :",
        "==7== Collected : x",
    ] {
        assert_eq!(collected(messages), None, "{messages}");
    }
}
