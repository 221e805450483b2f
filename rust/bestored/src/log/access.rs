//! How to reach a log's database: its URL, and the password, which may come from a file in the format that PostgreSQL's own
//! programs use.

use super::database::{Database, LIMIT};
use super::error::{Error, Result};
use crate::options::InLog;
use std::fs;
use std::os::unix::fs::PermissionsExt;
use std::path::{Path, PathBuf};
use std::time::Duration;
use tokio_postgres::config::Host;
use tokio_postgres::Config;

/// PostgreSQL's port, for URLs that don't specify one.
const PORT: u16 = 5432;

/// The values of `sslmode` that don't need TLS.
const PLAIN: [&str; 3] = ["disable", "allow", "prefer"];

/// How to reach the log, and how this server identifies itself there.
#[derive(Clone, Debug)]
pub struct Access {
    /// How to reach the database on each machine that the URL names, in the order in which they are tried.
    pub configs: Vec<Config>,
    /// This server's name for people: its machine and its socket.
    pub name: String,
    /// A string that is different for each run.
    pub run: String,
}

impl Access {
    pub fn new(in_log: &InLog, socket: Option<&Path>, run: &str) -> Result<Self> {
        Ok(Self {
            configs: of_machines(config(in_log)?),
            name: name(socket),
            run: run.into(),
        })
    }

    pub async fn connect(&self) -> Result<Database> {
        let database = Database::connect(&self.configs).await?;
        database.check_format().await?;
        Ok(database)
    }
}

/// Returns the server's name: the machine's name and the path of the socket.
fn name(socket: Option<&Path>) -> String {
    let machine = fs::read_to_string("/proc/sys/kernel/hostname").unwrap_or_default();
    let socket = socket.unwrap_or_else(|| Path::new("")).display();
    format!("{}:{socket}", machine.trim())
}

fn config(in_log: &InLog) -> Result<Config> {
    let environment = std::env::var("PGSSLMODE").ok();
    check_plain(ssl_mode(&in_log.url).or(environment.as_deref()))?;
    let mut config: Config = in_log.url.parse().map_err(Error::Url)?;
    match (config.get_password(), std::env::var("PGPASSWORD")) {
        (Some(_), _) => report!(
            "bestored: the password in the URL is visible in the list of processes; leave it out, and write it to a file for --passfile"
        ),
        (None, Ok(password)) => drop(config.password(password)),
        (None, Err(_)) => add_password(&mut config, in_log.passfile.as_deref())?,
    }
    if config.get_application_name().is_none() {
        config.application_name("bestored");
    }
    config.keepalives_idle(Duration::from_secs(5));
    limit_connecting(&mut config);
    Ok(config)
}

/// If the URL names several machines, limits the time for connecting to each address of a machine to somewhat less than the machine's share,
/// so that an address that doesn't reply doesn't keep the server from the machine's next one.
fn limit_connecting(config: &mut Config) {
    let machines = config.get_hosts().len() as u32;
    if machines > 1 && config.get_connect_timeout().is_none() {
        config.connect_timeout(LIMIT / (machines + 1));
    }
}

/// Splits the configuration if the URL names several machines. The time for each of them can then be limited, so that one that doesn't
/// reply doesn't keep the server from the others.
fn of_machines(config: Config) -> Vec<Config> {
    let (hosts, ports) = (config.get_hosts(), config.get_ports());
    if hosts.len() < 2 || ports.len() > 1 && ports.len() != hosts.len() {
        // If there are too many or too few ports, the error comes when connecting.
        return vec![config];
    }
    let of_machine = |(index, host): (usize, &Host)| {
        let mut one = without_machines(&config);
        match host {
            Host::Tcp(name) => one.host(name),
            Host::Unix(path) => one.host_path(path),
        };
        if let Some(port) = ports.get(index).or(ports.first()) {
            one.port(*port);
        }
        one
    };
    hosts.iter().enumerate().map(of_machine).collect()
}

/// Returns a copy of the configuration that names no machine.
fn without_machines(config: &Config) -> Config {
    let mut copy = Config::new();
    if let Some(user) = config.get_user() {
        copy.user(user);
    }
    if let Some(password) = config.get_password() {
        copy.password(password);
    }
    if let Some(name) = config.get_dbname() {
        copy.dbname(name);
    }
    if let Some(options) = config.get_options() {
        copy.options(options);
    }
    if let Some(name) = config.get_application_name() {
        copy.application_name(name);
    }
    if let Some(time) = config.get_connect_timeout() {
        copy.connect_timeout(*time);
    }
    copy.ssl_mode(config.get_ssl_mode());
    copy.keepalives(config.get_keepalives());
    copy.keepalives_idle(config.get_keepalives_idle());
    copy.target_session_attrs(config.get_target_session_attrs());
    copy.channel_binding(config.get_channel_binding());
    copy
}

/// Returns the value of `sslmode` in a URL or in a string such as `host=db sslmode=require`.
fn ssl_mode(url: &str) -> Option<&str> {
    let mut parameters = url.split(|character: char| "?& ".contains(character));
    parameters.find_map(|parameter| parameter.strip_prefix("sslmode="))
}

fn check_plain(mode: Option<&str>) -> Result<()> {
    match mode {
        Some(mode) if !PLAIN.contains(&mode) => Err(Error::NoTls { mode: mode.into() }),
        _ => Ok(()),
    }
}

/// Adds the password from this file or, if none is given, from the file that PostgreSQL's programs would read.
fn add_password(config: &mut Config, passfile: Option<&Path>) -> Result<()> {
    let found = match passfile {
        Some(path) => {
            let wrong = |why: String| Error::Passfile {
                path: path.to_owned(),
                why,
            };
            let text = private_text(path).map_err(wrong)?;
            let found = password(&text, config);
            Some(found.ok_or_else(|| wrong(format!("no line is for {}", wanted(config).join(" or "))))?)
        }
        None => default_passfile()
            .and_then(|path| private_text(&path).ok())
            .and_then(|text| password(&text, config)),
    };
    if let Some(found) = found {
        config.password(found);
    }
    Ok(())
}

fn default_passfile() -> Option<PathBuf> {
    let named = std::env::var_os("PGPASSFILE").filter(|path| !path.is_empty());
    let home = || std::env::var_os("HOME").map(|home| Path::new(&home).join(".pgpass"));
    named.map(PathBuf::from).or_else(home)
}

/// Returns the text of a file that no other user may read.
fn private_text(path: &Path) -> std::result::Result<String, String> {
    let about = fs::metadata(path).map_err(|error| error.to_string())?;
    let mode = about.permissions().mode() & 0o777;
    if !about.is_file() || mode & 0o077 != 0 {
        return Err(format!(
            "others may use this file, as its mode is {mode:04o}; give it the mode 0600"
        ));
    }
    fs::read_to_string(path).map_err(|error| error.to_string())
}

/// Returns what a line must begin with to give this database's password: a machine, port, database and user, for each machine.
fn wanted(config: &Config) -> Vec<String> {
    let user = config.get_user().unwrap_or_default();
    let database = config.get_dbname().unwrap_or(user);
    let ports = config.get_ports();
    let machine = |(index, host): (usize, &Host)| {
        let host = match host {
            Host::Tcp(name) => name.as_str(),
            Host::Unix(_) => "localhost",
        };
        let port = ports.get(index).or(ports.last()).unwrap_or(&PORT);
        format!("{host}:{port}:{database}:{user}")
    };
    config.get_hosts().iter().enumerate().map(machine).collect()
}

/// Returns the password from the first line that matches the database.
fn password(text: &str, config: &Config) -> Option<String> {
    let wanted = wanted(config);
    let lines = text.lines().filter(|line| !line.starts_with('#'));
    let mut fields = lines.map(fields);
    fields.find_map(|mut fields| match fields.len() {
        5 => {
            let password = fields.pop()?;
            wanted.iter().any(|wanted| is_for(&fields, wanted)).then_some(password)
        }
        _ => None,
    })
}

fn is_for(fields: &[String], wanted: &str) -> bool {
    let mut both = fields.iter().zip(wanted.split(':'));
    both.all(|(field, wanted)| field == "*" || field == wanted)
}

/// Splits a line into fields at each `:`. A `\` makes the next character part of the field.
fn fields(line: &str) -> Vec<String> {
    let mut fields = vec![String::new()];
    let mut characters = line.chars();
    while let Some(character) = characters.next() {
        let last = fields.len() - 1;
        match character {
            ':' if last < 4 => fields.push(String::new()),
            '\\' => fields[last].extend(characters.next()),
            character => fields[last].push(character),
        }
    }
    fields
}

#[cfg(test)]
mod tests {
    use super::*;

    fn of(text: &str, url: &str) -> Option<String> {
        password(text, &url.parse().unwrap())
    }

    #[test]
    fn the_first_line_that_fits_has_the_password() {
        let text =
            "# db:5432:letters:ann:no\n\nshort:line\ndb:5433:*:ann:port\n*:*:letters:ann:a\\:b\\\\c:d\n*:*:*:*:any";
        for (url, expected) in [
            ("postgresql://ann@db/letters", "a:b\\c:d"),
            ("postgresql://ann@db:5433/other", "port"),
            ("postgresql://ann@other:5433/letters", "a:b\\c:d"),
            ("postgresql://bob@db/letters", "any"),
            ("postgresql://ann@one:1,db:5433/x", "port"),
        ] {
            assert_eq!(of(text, url).as_deref(), Some(expected), "{url}");
        }
        assert_eq!(of("db:5432:letters:ann:a", "postgresql://ann@db2/letters"), None);
        assert_eq!(of("db:5432:ann:ann:a", "postgresql://ann@db").as_deref(), Some("a"));
        let socket = "postgresql:///letters?user=ann&host=/run/postgresql";
        assert_eq!(of("localhost:5432:letters:ann:a", socket).as_deref(), Some("a"));
    }

    #[test]
    fn each_machine_is_reached_alike() {
        let url = |machines| {
            let settings = "options=-csearch_path%3Da&application_name=b&connect_timeout=7&keepalives=0";
            let of_session = "sslmode=disable&target_session_attrs=read-write&channel_binding=disable";
            let url = format!("postgresql://ann:c@{machines}/letters?{settings}&{of_session}");
            url.parse::<Config>().unwrap()
        };
        assert_eq!(of_machines(url("one:1,two:2")), [url("one:1"), url("two:2")]);
        assert_eq!(of_machines(url("one:1")), [url("one:1")]);
        let with_one_port = "host=one,/run port=1".parse().unwrap();
        let each = ["host=one port=1", "host=/run port=1"].map(|one| one.parse::<Config>().unwrap());
        assert_eq!(of_machines(with_one_port), each);
    }

    #[test]
    fn an_address_gets_less_time_than_its_machine() {
        let limit = |url: &str| {
            let mut config: Config = url.parse().unwrap();
            limit_connecting(&mut config);
            config.get_connect_timeout().copied()
        };
        assert_eq!(limit("host=one"), None);
        assert_eq!(limit("host=one,two"), Some(LIMIT / 3));
        assert_eq!(limit("host=one,two connect_timeout=9"), Some(Duration::from_secs(9)));
    }

    #[test]
    fn tls_is_refused() {
        for (url, mode) in [
            ("postgresql://db/a?sslmode=require", "require"),
            ("postgresql://db/a?user=b&sslmode=verify-full", "verify-full"),
            ("host=db sslmode=verify-ca", "verify-ca"),
            ("postgresql://db/a?sslmode=", ""),
        ] {
            let refused = check_plain(ssl_mode(url)).unwrap_err();
            assert!(
                matches!(refused, Error::NoTls { mode: found } if found == mode),
                "{url}"
            );
        }
        for url in [
            "postgresql://db/a",
            "postgresql://db/a?sslmode=prefer",
            "host=db sslmode=disable",
        ] {
            check_plain(ssl_mode(url)).unwrap();
        }
    }
}
