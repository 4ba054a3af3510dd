//! PARI/GP as a process of its own on the same core, which is given one line and answers one line. Its time is what the system says that the processor
//! spent on it; reading and answering the line is in it, some ten microseconds of a sample of more than a thousand.

use std::io::{BufRead, BufReader, Write};
use std::process::{Child, ChildStdin, ChildStdout, Command, Stdio};

use common::inputs::Steps;
use reference::sheet::Certificate;

pub struct Pari {
    process: Child,
    to: ChildStdin,
    from: BufReader<ChildStdout>,
}

impl Pari {
    pub fn start() -> Pari {
        let mut process = Command::new("gp")
            .args(["-q", "-f", "--default", "colors=no"])
            .stdin(Stdio::piped())
            .stdout(Stdio::piped())
            .spawn()
            .expect("gp can be started");
        let to = process.stdin.take().expect("a pipe");
        let from = BufReader::new(process.stdout.take().expect("a pipe"));
        let mut pari = Pari { process, to, from };
        pari.tell("default(parisizemax, 256000000);");
        pari.tell("again(n) = { for (i = 1, n, ellisogeny(E, g)); 1 };");
        pari.tell("composed(n) = { for (i = 1, n, ellisogenyapply(second[2], first[2])); 1 };");
        pari
    }

    fn tell(&mut self, line: &str) {
        writeln!(self.to, "{line}").expect("gp reads");
    }

    fn tell_polynomial(&mut self, name: &str, coefficients: &[u64], p: u64) {
        let texts: Vec<String> = coefficients.iter().map(u64::to_string).collect();
        self.tell(&format!(
            "{name} = Polrev([{}]) * Mod(1, {p});",
            texts.join(",")
        ));
    }

    fn ask(&mut self, line: &str) -> String {
        self.tell(&format!("print({line});"));
        let mut answer = String::new();
        self.from.read_line(&mut answer).expect("gp answers");
        answer.trim().to_string()
    }

    /// The domain and the kernel polynomial that `again` takes; the codomain and N must be those of the certificate.
    pub fn set(&mut self, certificate: &Certificate) {
        let q = &certificate.question;
        self.tell(&format!("E = ellinit([{}, {}], {});", q.a, q.b, q.p));
        self.tell_polynomial("g", &certificate.g, q.p);
        self.tell_polynomial("N", &certificate.n, q.p);
        let same = format!(
            "my(r = ellisogeny(E, g)); r[1][4] == {} && r[1][5] == {} && r[2][1] == N && r[2][3] == g",
            q.a_t, q.b_t
        );
        assert_eq!(self.ask(&same), "1", "PARI has another isogeny");
    }

    /// The two maps that `composed` takes, of which each must be that of its certificate, and so must what they make.
    pub fn set_steps(&mut self, steps: &Steps) {
        for (name, input) in [("first", &steps.first), ("second", &steps.second)] {
            self.set(&input.certificate);
            self.tell(&format!("{name} = ellisogeny(E, g);"));
        }
        self.set(&steps.composite.certificate);
        let same = "my(r = ellisogenyapply(second[2], first[2])); r[1] * g^2 == N * r[3]^2 && r[3] / pollead(r[3]) == g";
        assert_eq!(self.ask(same), "1", "PARI has another composite");
    }

    /// Microseconds that the processor spent on the process.
    fn spent(&self) -> f64 {
        let path = format!("/proc/{}/schedstat", self.process.id());
        let text = std::fs::read_to_string(path).expect("the system counts the time of processes");
        let first = text
            .split_whitespace()
            .next()
            .and_then(|word| word.parse::<f64>().ok());
        first.expect("nanoseconds come first") / 1e3
    }

    fn timed(&mut self, call: &str) -> f64 {
        let start = self.spent();
        assert_eq!(self.ask(call), "1");
        self.spent() - start
    }

    /// Microseconds for so many computations of the codomain and the whole map.
    pub fn again(&mut self, times: usize) -> f64 {
        self.timed(&format!("again({times})"))
    }

    /// Microseconds for so many computations of the map of one isogeny followed by another.
    pub fn composed(&mut self, times: usize) -> f64 {
        self.timed(&format!("composed({times})"))
    }
}

impl Drop for Pari {
    fn drop(&mut self) {
        self.tell("quit;");
        // Nothing is lost where it has gone already.
        let _ = self.process.wait();
    }
}
