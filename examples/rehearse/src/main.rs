//! Plays a script of a whole world: a publisher, a server and clients in one process. `pir_client`
//! without a command does the same; this has less to compile, so scripts/demo begins with it.

use world_script::rehearse;
use std::io;
use std::process::ExitCode;

fn main(rt: HostRuntime) -> ExitCode {
    match rehearse(rt.alloc(), &mut rt.reader(), &mut io::writer(&rt)) {
        Ok(status) => ExitCode::from(status),
        Err(_) => ExitCode::FAILURE,
    }
}
