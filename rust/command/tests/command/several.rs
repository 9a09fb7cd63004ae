//! Several files and folders as one piece of work.

use crate::common::{names_in, Folder, DESK, SHOP};

/// A file with one service of this network.
fn till(network: &str) -> String {
    format!("[service_till]\nType = wifi\nName = {network}\nPassphrase = low tide 88\n")
}

#[test]
fn files_and_folders_are_moved_as_one() {
    let folder = Folder::new("as-one");
    folder.write("a.config", till("Left"));
    folder.write("more/b.config", till("Right"));
    folder.write("more/deep/c.config", till("Rear"));
    folder.write("more/Desk 4.psk", DESK);
    std::fs::create_dir(folder.path().join("out")).unwrap();
    let told = "out/Left.psk: written from a.config, service 1, [service_till]\n\
                out/Right.psk: written from more/b.config, service 1, [service_till]\n\
                out/Rear.psk: written from more/deep/c.config, service 1, [service_till]\n\
                3 written, 1 file skipped\n";
    let run = folder.run(&["move", "a.config", "more", "--to", "out"]);
    run.gives(0, told, "");
    assert_eq!(names_in(&folder.path().join("out")), ["Left.psk", "Rear.psk", "Right.psk"]);
    assert!(folder.path().join("a.config").exists(), "the source stays");
}

#[test]
fn one_bad_file_of_several_keeps_all_from_moving() {
    let folder = Folder::new("one-bad");
    folder.write("a.config", till("Left"));
    folder.write("b.config", "[service_b]\nType = wifi\n");
    std::fs::create_dir(folder.path().join("out")).unwrap();
    for arguments in [
        &["move", "a.config", "b.config", "--to", "out"][..],
        &["move", "b.config", "a.config", "--to", "out"],
    ] {
        let run = folder.run(arguments);
        assert_eq!(run.code, Some(1));
        assert!(
            run.out.contains("b.config:1: error: [service_b] has neither Name nor SSID"),
            "{}",
            run.out
        );
        assert_eq!(
            run.err,
            "qewaris: nothing was written\nqewaris: 1 of 2 files did not pass: b.config\n"
        );
        assert_eq!(names_in(&folder.path().join("out")), [""; 0]);
    }
    let run = folder.run(&["move", "a.config", "gone.config", "--to", "out"]);
    assert_eq!((run.code, names_in(&folder.path().join("out")).len()), (Some(2), 0));
    assert!(run.err.ends_with("1 of 2 files did not pass: gone.config\n"), "{}", run.err);
}

#[test]
fn two_files_of_one_network_clash() {
    let folder = Folder::new("two-files");
    folder.write("a.config", till("Left"));
    folder.write("b.config", till("Left"));
    let told = "qewaris: a.config: [service_till] on line 1 and b.config: [service_till] on line 1 would both be Left.psk; \
                the files of two tills go into two folders\nqewaris: nothing was written\n";
    folder.run(&["move", "a.config", "b.config", "--to", "."]).gives(1, "", told);
    folder
        .run(&["move", "a.config", "./a.config", "--to", "."])
        .gives(0, "Left.psk: written from service 1, [service_till]\n", "");
}

#[test]
fn services_may_be_named_more_than_once() {
    let folder = Folder::new("named-services");
    let file: String = ["a", "b", "c"]
        .map(|name| till(name).replace("_till", &format!("_{name}")))
        .concat();
    folder.write("three.config", file);
    let told = "a.psk: written from service 1, [service_a]\nc.psk: written from service 3, [service_c]\n";
    folder
        .run(&["move", "three.config", "--service", "3", "--service=1"])
        .gives(0, told, "");
    assert_eq!(folder.names(), ["a.psk", "c.psk", "three.config"]);
    let run = folder.run(&["show", "three.config", "--service", "1", "--service", "3"]);
    assert!(run.out.contains("service 1,") && run.out.contains("service 3,") && !run.out.contains("service 2,"));
}

const UNPLACED: &str = "[service_a]\nType = wifi\nName = Left\nPassphrase = low tide 88\n[service_b]\nType = ethernet\n\
IPv4 = off\nMAC = 02:00:5e:10:00:01\nTimeservers = ntp.example\n";

#[test]
fn every_line_that_stands_in_the_way_is_told() {
    let folder = Folder::new("every-line");
    folder.write("two.config", UNPLACED);
    let run = folder.run(&["move", "two.config", "--all"]);
    assert_eq!((run.code, run.err.as_str()), (Some(1), "qewaris: nothing was written\n"));
    let heads: Vec<&str> = run.out.lines().filter(|line| line.contains(": error: ")).collect();
    assert_eq!(heads.len(), 4, "{}", run.out);
    for (head, start) in heads
        .iter()
        .zip(["two.config:6:", "two.config:7:", "two.config:8:", "two.config:9:"])
    {
        assert!(head.starts_with(start) && head.ends_with(" [16]"), "{head}");
    }
}

#[test]
fn what_has_no_place_is_left_out_where_asked() {
    let folder = Folder::new("left-out");
    folder.write("two.config", UNPLACED);
    let run = folder.run(&["move", "two.config", "--all", "--skip-unplaced"]);
    assert_eq!((run.code, run.err.as_str()), (Some(0), ""));
    assert_eq!(run.out.matches(": left out: [service_b] ").count(), 4, "{}", run.out);
    assert!(
        run.out
            .ends_with("Left.psk: written from service 1, [service_a]\n1 written, 1 left out\n"),
        "{}",
        run.out
    );
    assert_eq!(folder.names(), ["Left.psk", "two.config"]);
    let run = folder.run(&["move", "two.config", "--service", "2", "--skip-unplaced"]);
    assert_eq!(
        (run.code, run.err.as_str()),
        (Some(1), "qewaris: there is nothing to move: nothing was written\n")
    );
    let run = folder.run(&["move", "two.config", "--service", "3", "--skip-unplaced"]);
    assert_eq!(run.code, Some(1), "that there is no such service is not left out");
}

#[test]
fn the_folder_in_last_place_is_answered_with_to() {
    let folder = Folder::new("last-place");
    folder.write("a.config", till("Left"));
    folder.write("out/note", "");
    for (last, told) in [("out/", "out/"), ("out", "out"), ("gone/", "gone/")] {
        let sentence = format!("{told} names a folder; --to {told} says that the iwd files go there. Try qewaris move --help");
        folder
            .run(&["move", "a.config", last])
            .gives(3, "", &format!("qewaris: {sentence}\n"));
    }
    assert_eq!(names_in(&folder.path().join("out")), ["note"]);
}

#[test]
fn several_files_are_shown_one_after_the_other() {
    let folder = Folder::new("shown");
    folder.write("a/shop.config", SHOP);
    folder.write("a/Desk 4.psk", DESK);
    let (first, second) = (
        folder.run(&["show", "a/Desk 4.psk"]).out,
        folder.run(&["show", "a/shop.config"]).out,
    );
    folder.run(&["show", "a"]).gives(0, &format!("{first}\n{second}"), "");
    folder
        .run(&["show", "a/Desk 4.psk", "a/shop.config"])
        .gives(0, &format!("{first}\n{second}"), "");
    let run = folder.run(&["show", "a", "gone.psk"]);
    assert_eq!(run.code, Some(2));
    assert!(run.err.ends_with("qewaris: 1 of 3 files did not pass: gone.psk\n"), "{}", run.err);
}

#[test]
fn quiet_leaves_only_errors_and_the_exit_status() {
    let folder = Folder::new("quiet");
    folder.write("a/Desk.psk", "");
    folder.write("a/shop.config", SHOP);
    let told = "qewaris: 1 of 2 files did not pass: a/Desk.psk\n";
    folder.run(&["check", "--quiet", "a"]).gives(1, "", told);
    folder.run(&["check", "-q", "a/Desk.psk"]).gives(1, "", "");
    folder.run(&["move", "-q", "a/shop.config"]).gives(0, "", "");
    assert_eq!(folder.names(), ["Desk 4.psk", "a"]);
}
