//! A service that accepts a token once: `cargo run --features openssl,http --example hyper -- example.org.json 127.0.0.1:8080`

use std::{convert::Infallible, env::args, error::Error};

use hyper::service::{make_service_fn, service_fn};
use hyper::{Body, Request, Response, Server};
use svid::{Guard, OpenSsl, Options, Sources};

async fn hello(guard: &Guard<OpenSsl>, request: Request<Body>) -> Result<Response<Body>, Infallible> {
    Ok(match guard.admit(request.headers().get_all("authorization")) {
        Ok(accepted) => Response::new(format!("hello {}\n", accepted.spiffe_id()).into()),
        Err(denied) => denied.response(),
    })
}

#[tokio::main(flavor = "current_thread")]
async fn main() -> Result<(), Box<dyn Error>> {
    let sources = Sources::new().file("example.org", args().nth(1).unwrap_or_default());
    let guard: &Guard<_> = Box::leak(Box::new(Guard::open(&Options::new(["ledger"]), sources, OpenSsl::new())?));
    let answers = make_service_fn(move |_| async move { Ok::<_, Infallible>(service_fn(move |request| hello(guard, request))) });
    let server = Server::try_bind(&args().nth(2).unwrap_or_default().parse()?)?.serve(answers);
    println!("listening on {}", server.local_addr());
    Ok(server.await?)
}
