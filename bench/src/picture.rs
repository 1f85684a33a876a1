//! Growth as a picture in text.

/// A bar for each time, the longest 40 wide.
pub fn bar(title: &str, times: &[(String, f64)]) {
    println!("{title}");
    let most = times.iter().map(|t| t.1).fold(0.0, f64::max);
    for (what, time) in times {
        println!("  {what:>8} {:40} {}", "#".repeat((40.0 * time / most).round() as usize), crate::clock::shown(*time));
    }
}
