//! `info`, `clients` and `kick`: the server's activity.

use crate::command_line::{Activity, Kick, ServerOptions};
use crate::failure::Failure;
use crate::output::Output;
use crate::server::call_without_place;
use bestore_client::wire::{ClientInfo, Info, Latency, OldestReader};
use bestore_client::Client;

/// Formats a time in a human-readable form.
fn time(milliseconds: u64) -> String {
    let seconds = milliseconds / 1_000;
    match seconds {
        0 => format!("{milliseconds} ms"),
        1..=119 => format!("{seconds} s"),
        120..=7_199 => format!("{} min", seconds / 60),
        7_200..=172_799 => format!("{} h", seconds / 3_600),
        _ => format!("{} d", seconds / 86_400),
    }
}

/// Formats a number of bytes in a human-readable form.
fn size(bytes: u64) -> String {
    match bytes {
        0..=9_999 => format!("{bytes} bytes"),
        10_000..=9_999_999 => format!("{} kB", bytes / 1_000),
        _ => format!("{} MB", bytes / 1_000_000),
    }
}

fn latency(latency: &Latency) -> String {
    let Latency { p50, p99, most } = latency;
    format!("p50 {p50} µs, p99 {p99} µs, at most {most} µs")
}

fn oldest(reader: &OldestReader) -> String {
    let by = match (reader.client, reader.process) {
        (Some(client), Some(process)) => format!("client {client} (process {process})"),
        _ => "the server itself".into(),
    };
    let held = reader.milliseconds.map(|held| format!(", for {}", time(held)));
    let earlier = if reader.earlier { ", in earlier memory" } else { "" };
    format!("{}, by {by}{}{earlier}", reader.commit, held.unwrap_or_default())
}

fn lines(info: &Info) -> Vec<(&'static str, String)> {
    let mut lines = vec![
        (
            "server",
            format!("{}, run {}, process {}", info.server, info.run, info.process),
        ),
        ("has run for", time(info.seconds.saturating_mul(1_000))),
        (
            "clients",
            format!("{}, with {} live queries", info.clients, info.watches),
        ),
        ("requests", info.requests.to_string()),
        (
            "writes",
            format!("{}, {} per second", info.writes, info.writes_per_second),
        ),
        ("writes now", info.writing.to_string()),
        (
            "pages",
            format!("{}, {} free, {} retired", info.pages, info.free, info.retired),
        ),
        (
            "oldest snapshot",
            info.oldest.as_ref().map_or_else(|| "none".into(), oldest),
        ),
    ];
    lines.extend(info.latency.as_ref().map(|times| ("a write takes", latency(times))));
    lines.extend(info.commits.as_ref().map(|times| ("a commit takes", latency(times))));
    lines.extend(
        info.unsaved
            .map(|age| ("oldest unsaved write", format!("{} old", time(age)))),
    );
    if let Some(files) = &info.files {
        lines.push((
            "file",
            format!("{}, and {} of -wal", size(files.bytes), size(files.wal_bytes)),
        ));
    }
    if let Some(log) = &info.log {
        let term = log.term.map(|term| format!(" in term {term}")).unwrap_or_default();
        lines.push((
            "log",
            format!("{}{term}, entry {}, {} late", log.role, log.entry, log.lag),
        ));
    }
    lines
}

pub fn info(client: &mut Client, line: &Activity, output: &mut Output) -> Result<(), Failure> {
    let info = client.info()?;
    if line.json {
        return output.json(&info);
    }
    let mut lines = lines(&info);
    // It may contain the path of a folder.
    let trouble = info.trouble.iter();
    lines.extend(trouble.map(|trouble| ("trouble", output.name(trouble).into_owned())));
    let lines = lines.into_iter().map(|(name, value)| vec![name.into(), value]);
    output.aligned(&lines.collect::<Vec<_>>())
}

fn row(client: &ClientInfo) -> Vec<String> {
    let pinned = client.pinned.as_ref().map_or_else(
        || "-".into(),
        |pinned| format!("{} for {}", pinned.commit, time(pinned.milliseconds)),
    );
    vec![
        client.client.to_string(),
        client.process.to_string(),
        time(client.seconds.saturating_mul(1_000)),
        client.requests.to_string(),
        client.command.as_deref().unwrap_or("-").into(),
        pinned,
    ]
}

pub fn clients(server: &ServerOptions, line: &Activity, output: &mut Output) -> Result<(), Failure> {
    let clients = call_without_place(server, Client::clients)?;
    if line.json {
        return output.json(&clients);
    }
    let headings = ["Client", "Process", "Connected", "Requests", "Command", "Pinned"];
    let mut rows = vec![headings.map(String::from).to_vec()];
    rows.extend(clients.iter().filter(|client| !client.own).map(row));
    output.aligned(&rows)
}

pub fn kick(server: &ServerOptions, line: &Kick) -> Result<(), Failure> {
    call_without_place(server, |client| client.kick(line.client))
}

#[cfg(test)]
mod tests {
    use super::*;

    #[test]
    fn times_and_sizes_have_the_unit_that_fits() {
        let times = [
            (0, "0 ms"),
            (999, "999 ms"),
            (1_000, "1 s"),
            (119_999, "119 s"),
            (120_000, "2 min"),
        ];
        let long = [
            (7_199_999, "119 min"),
            (7_200_000, "2 h"),
            (172_799_999, "47 h"),
            (172_800_000, "2 d"),
        ];
        for (given, shown) in times.into_iter().chain(long) {
            assert_eq!(time(given), shown);
        }
        let sizes = [
            (9_999, "9999 bytes"),
            (10_000, "10 kB"),
            (9_999_999, "9999 kB"),
            (10_000_000, "10 MB"),
        ];
        for (given, shown) in sizes {
            assert_eq!(size(given), shown);
        }
    }

    #[test]
    fn who_keeps_the_oldest_snapshot_is_named() {
        let of_server = OldestReader {
            commit: 5,
            ..OldestReader::default()
        };
        assert_eq!(oldest(&of_server), "5, by the server itself");
        let of_client = OldestReader {
            commit: 7,
            client: Some(3),
            process: Some(77),
            milliseconds: Some(12_345),
            earlier: false,
        };
        let named = "7, by client 3 (process 77), for 12 s";
        assert_eq!(oldest(&of_client), named);
        let before = OldestReader {
            earlier: true,
            ..of_client
        };
        assert_eq!(oldest(&before), format!("{named}, in earlier memory"));
    }
}
