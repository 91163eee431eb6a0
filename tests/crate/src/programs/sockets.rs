//! The system: its random bytes, and both ends of a socket in one process: clients send first, and
//! read at the end.
use crate::checks::{holds, same};
use crate::programs::rows::{TABLE, Tenants};
use judy_disk::Locks;
use judy_many::{Ending, Limits, serve_many};
use judy_programs::{Hosted, Hosts, Opens, System, Unopened, host_on, read_secret};
use judy_table::TableFault;
use std::alloc::{AllocError, Global};
use std::fs;
use std::io::{self, Eprint, Write};
use std::net::{Net, Shutdown};
use std::os::unix::net::UnixStream;
use std::process::Abort;
use std::rt::Clock;
use std::test::Fail;

// A service of the two tenants, none of whom has an entry.
fn open(alloc: Global) -> Result<Tenants, Fail> {
    match Tenants::open(alloc, b"secret", TABLE.as_bytes()) {
        Ok(tenants) => Ok(tenants),
        Err(Unopened::Table(_)) => Err(Fail::from("the table has a fault")),
        Err(Unopened::Memory) => Err(Fail::from("no memory")),
    }
}

// A client that has sent a script. If `ends` is true, it sends no more.
fn client(rt: &impl Net, path: &str, script: &[u8], ends: bool) -> io::Result<UnixStream> {
    let mut client = UnixStream::connect(rt, path)?;
    client.write_all(script)?;
    if ends {
        client.shutdown(Shutdown::Write)?;
    }
    Ok(client)
}

// Clients that have sent these scripts, in this order.
fn clients(
    rt: &impl Net,
    alloc: Global,
    path: &str,
    scripts: &[(&[u8], bool)],
) -> Result<Vec<UnixStream>, Fail> {
    let mut clients = Vec::new(alloc);
    for (script, ends) in scripts {
        clients.push(client(rt, path, script, *ends)?)?;
    }
    Ok(clients)
}

// Each client reads this text up to the end.
fn check_all(
    rt: &impl Abort,
    alloc: Global,
    clients: &mut [UnixStream],
    wanted: &[&str],
) -> Result<(), Fail> {
    same(rt, clients.len(), wanted.len());
    for (client, want) in clients.iter_mut().zip(wanted) {
        let read = io::read_to_string(alloc, client)?;
        same(rt, read.as_str(), *want);
    }
    Ok(())
}

// Limits for this many connections, of whom two are served at once.
fn limits(connections: u64, idle: Option<u32>, turn: Option<u32>) -> Limits {
    Limits {
        clients: 2,
        tenant_clients: None,
        share: 1024,
        connections,
        login: None,
        idle,
        turn,
        status: false,
        journal: None,
    }
}

// Serves this many connections, within these limits.
fn serve_all<R: Abort + Locks + Net + Clock + Eprint + Clone + Drop>(
    rt: &R,
    alloc: Global,
    system: &mut System<'_, R>,
    limits: Limits,
    want: Ending,
) -> Result<(), Fail> {
    let mut tenants = open(alloc)?;
    let ending = serve_many(alloc, system, &mut tenants, limits, None);
    same(rt, ending, want);
    Ok(())
}

// Serves as many clients as there are scripts, with these limits in seconds. Compares what each
// client reads.
fn check_served<R: Abort + Locks + Net + Clock + Eprint + Clone + Drop>(
    rt: &R,
    alloc: Global,
    path: &str,
    (idle, turn): (Option<u32>, Option<u32>),
    scripts: &[(&[u8], bool)],
    wanted: &[&str],
) -> Result<(), Fail> {
    let _ = fs::remove_file(rt, path);
    let mut system = System::new(rt);
    holds(rt, system.bind(alloc, path));
    let count = scripts.len() as u64;
    let mut clients = clients(rt, alloc, path, scripts)?;
    let limits = limits(count, idle, turn);
    serve_all(rt, alloc, &mut system, limits, Ending::Done)?;
    check_all(rt, alloc, &mut clients, wanted)?;
    fs::remove_file(rt, path)?;
    Ok(())
}

#[test]
fn two_connections(rt: HostRuntime) -> Result<(), Fail> {
    let one = b"AUTH alice abc\nJ1S a 1\nQUIT\n";
    let two = b"AUTH alice abc\nJ1T a 1\nQUIT\n";
    check_served(
        &rt,
        rt.alloc(),
        "two_connections.sock",
        (None, None),
        &[(one, true), (two, true)],
        &["OK\n1\nBYE\n", "OK\n1\nBYE\n"],
    )
}

// One client leaves in the middle of a line, and one leaves before its reply is written. Only their
// own connections end.
#[test]
fn clients_that_leave(rt: HostRuntime) -> Result<(), Fail> {
    let path = "clients_that_leave.sock";
    let _ = fs::remove_file(&rt, path);
    let mut system = System::new(&rt);
    holds(&rt, system.bind(rt.alloc(), path));
    let _ = client(&rt, path, b"AUTH alice abc\nJ1S a", false)?;
    let _ = client(&rt, path, b"AUTH alice abc\nJ1S a 1\nJ1S a 2\n", false)?;
    let mut three = client(&rt, path, b"AUTH alice abc\nJ1T a 7\nQUIT\n", true)?;
    let limits = limits(3, None, None);
    serve_all(&rt, rt.alloc(), &mut system, limits, Ending::Done)?;
    same(
        &rt,
        io::read_to_string(rt.alloc(), &mut three)?.as_str(),
        "OK\n0\nBYE\n",
    );
    fs::remove_file(&rt, path)?;
    Ok(())
}

// Without a socket nobody is served.
#[test]
fn no_socket(rt: HostRuntime) -> Result<(), Fail> {
    let limits = limits(1, None, None);
    let mut system = System::new(&rt);
    serve_all(&rt, rt.alloc(), &mut system, limits, Ending::Socket)
}

// A client that sends nothing and a client that sends a part of a line lose their connections, by
// either limit. The next client is served.
#[test]
fn idle_clients(rt: HostRuntime) -> Result<(), Fail> {
    let two = b"AUTH alice abc\nJ1S a 1\nJ1S";
    let three = b"AUTH alice abc\nJ1T a 1\nQUIT\n";
    for limits in [(Some(1), Some(60)), (None, Some(1))] {
        check_served(
            &rt,
            rt.alloc(),
            "idle_clients.sock",
            limits,
            &[(b"", false), (two, false), (three, true)],
            &["", "OK\n1\n", "OK\n1\nBYE\n"],
        )?;
    }
    Ok(())
}

// Starts a server with the table of this file and a socket at this path, which serves no connection.
// Compares how it ends.
fn check_hosted<R: Abort + Locks + Net + Clock + Eprint + Clone + Drop>(
    rt: &R,
    alloc: Global,
    system: &mut System<'_, R>,
    (config, path): (&str, &str),
    want: Hosted,
) {
    let limits = limits(0, None, None);
    let hosted = host_on::<Tenants, _>(alloc, b"", system, config, path, None, None, None, limits);
    same(rt, hosted, want);
}

// A text of this many signs `#`.
fn signs(alloc: Global, count: usize) -> Result<String, AllocError> {
    let mut text = String::new(alloc);
    for _ in 0..count {
        text.push('#')?;
    }
    Ok(text)
}

// The faults, in the order in which they are checked. The socket is there after the first server.
#[test]
fn faults_of_hosting(rt: HostRuntime) -> Result<(), Fail> {
    let alloc = rt.alloc();
    let path = "faults_of_hosting.sock";
    let config = "faults_of_hosting.toml";
    let files = (config, path);
    let _ = fs::remove_file(&rt, path);
    let _ = fs::remove_file(&rt, config);
    let mut system = System::new(&rt);
    check_hosted(&rt, alloc, &mut system, files, Hosted::Config);
    fs::write(&rt, config, signs(alloc, 65536)?.as_str().as_bytes())?;
    let count = Hosted::Table(TableFault::Count);
    check_hosted(&rt, alloc, &mut system, files, count);
    fs::write(&rt, config, signs(alloc, 65537)?.as_str().as_bytes())?;
    check_hosted(&rt, alloc, &mut system, files, Hosted::Long);
    fs::write(&rt, config, TABLE.as_bytes())?;
    check_hosted(&rt, alloc, &mut system, files, Hosted::Done);
    check_hosted(&rt, alloc, &mut system, files, Hosted::Socket);
    fs::remove_file(&rt, path)?;
    fs::remove_file(&rt, config)?;
    Ok(())
}

// Two starts of the program draw two secrets.
#[test]
fn two_starts_differ(rt: HostRuntime) {
    let one = System::new(&rt).secret();
    let other = System::new(&rt).secret();
    holds(&rt, one.is_some() && other.is_some() && one != other);
}

#[test]
fn too_few_bytes_are_no_secret(rt: HostRuntime) {
    holds(&rt, read_secret(&rt, "/dev/null").is_none());
    holds(&rt, read_secret(&rt, "/dev/null/absent").is_none());
}
