//! A module's registers with their flags spelt.

use crate::module::Module;

/// The flags that are 1, from bit 7 down; a field of several bits is given with its name and number.
fn control(value: u8, names: &str) -> String {
    let names = names.split(' ').enumerate();
    let set = names.filter(|(index, _)| value >> (7 - index) & 1 == 1);
    set.map(|(_, name)| format!(" {name}")).collect()
}

/// Flags of USICTL1.
pub fn flags(value: u8) -> String {
    control(value << 4, "AL STP STTIFG IFG")
}

/// All six registers.
pub fn spelt(module: &Module) -> String {
    let [ctl0, ctl1, ckctl, cnt, srl, srh] = module.registers;
    let flags0 = control(ctl0, "PE7 PE6 PE5 LSB MST GE OE SWRST");
    let flags1 = control(ctl1, "CKPH I2C STTIE IIE AL STP STTIFG IFG");
    let clock = format!(" DIV={} SSEL={}{}", ckctl >> 5, ckctl >> 2 & 7, control(ckctl << 6, "CKPL SWCLK"));
    let count = format!("{} CNT={}", control(cnt, "SCLREL 16B IFGCC"), cnt & 0x1F);
    format!(
        "USICTL0={ctl0:02X}{flags0}, USICTL1={ctl1:02X}{flags1}, USICKCTL={ckctl:02X}{clock}, \
         USICNT={cnt:02X}{count}, USISRL={srl:02X}, USISRH={srh:02X}"
    )
}
