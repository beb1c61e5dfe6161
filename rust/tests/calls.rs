//! Each call, with figures and refused; the worked examples are document 01's.
use delvouzh::{
    answer_line, check, chords_at, closing_radius_m, combine, copied, drill, geometry, mass_properties, most_samples,
    placed, principal_moments, scratch_len, sqrt, tube_mass_properties, with_part_moved, without_part, Body, Density,
    Engine, Error, Fillet, FinSet, Place, Placement, Planform, Refusal, Section, Tab, TensorFault, TubeFinSet,
};

const TRAPEZOID: Planform = Planform::Trapezoid {
    root_chord_m: 0.2,
    tip_chord_m: 0.1,
    span_m: 0.15,
    sweep_m: 0.05,
};

const ELLIPSE: Planform = Planform::Ellipse {
    root_chord_m: 0.2,
    span_m: 0.1,
};

fn set(planform: Planform) -> FinSet {
    FinSet {
        count: 3,
        planform,
        thickness_m: 0.003,
        section: Section::Square,
        tab: None,
        fillet: None,
        cant_rad: 0.0,
        base_angle_rad: 0.0,
        body_radius_m: 0.05,
        density: Density::Bulk { kg_m3: 680.0 },
    }
}

fn refusal(set: FinSet) -> Refusal {
    let mut scratch = vec![7.0; scratch_len(8)];
    let failed = mass_properties(&set, 8, &mut scratch).unwrap_err();
    assert_eq!(failed.samples, 0);
    assert!(
        scratch.iter().all(|&x| x == 7.0),
        "a check before the strips writes no scratch"
    );
    table(failed.error)
}

/// The row of the table that a call was refused with.
fn table(error: Error) -> Refusal {
    match error {
        Error::Refused(refusal) => refusal,
        _ => panic!("{error}"),
    }
}

fn near(a: f64, b: f64) -> bool {
    (a - b).abs() <= 1e-12 * b.abs()
}

#[test]
fn a_set_has_figures() {
    let mut scratch = vec![0.0; scratch_len(8)];
    let figures = mass_properties(&set(TRAPEZOID), 8, &mut scratch).unwrap();
    assert!(near(figures.body.mass_kg, 3.0 * 680.0 * 0.003 * 0.15 * 0.15));
    assert_eq!((figures.intervals, figures.samples), (1, 15));
    assert_eq!(
        scratch[1],
        0.15 / 0.35,
        "the first piece ends at the span over root chord plus span"
    );
    check(&figures.body).unwrap();
}

#[test]
fn each_section_and_tab_changes_the_mass() {
    let mut scratch = vec![0.0; scratch_len(64)];
    let mut mass = |set: FinSet| mass_properties(&set, 64, &mut scratch).unwrap().body.mass_kg;
    let square = mass(set(TRAPEZOID));
    let rounded = mass(FinSet {
        section: Section::Rounded,
        ..set(TRAPEZOID)
    });
    let airfoil = mass(FinSet {
        section: Section::Airfoil,
        ..set(TRAPEZOID)
    });
    let open = mass(FinSet {
        section: Section::AirfoilOpen,
        ..set(TRAPEZOID)
    });
    let tab = Tab {
        height_m: 0.01,
        length_m: 0.1,
        offset_m: 0.05,
    };
    let tabbed = mass(FinSet {
        tab: Some(tab),
        ..set(TRAPEZOID)
    });
    assert!(rounded < square);
    // a chord's share of the slab: PHI of the closed and of the open tail
    assert!(near(airfoil, square * 40853.0 / 60000.0));
    assert!(near(open, square * 8221.0 / 12000.0));
    assert!(near(tabbed - square, 3.0 * 680.0 * 0.003 * 0.01 * 0.1));
}

#[test]
fn a_fillet_s_glue_is_weighed() {
    let mut scratch = vec![0.0; scratch_len(64)];
    let mut mass = |radius_m, kg_m3| {
        let fillet = Fillet {
            radius_m,
            density: Density::Bulk { kg_m3 },
        };
        let set = FinSet {
            fillet: Some(fillet),
            ..set(TRAPEZOID)
        };
        mass_properties(&set, 64, &mut scratch).unwrap().body.mass_kg
    };
    let bare = mass(0.0, 1200.0);
    assert_eq!(mass(0.01, 0.0), bare);
    assert_eq!(mass(0.01, 1200.0).to_bits(), 0x3fc4a28891b0e97b);
    // a small fillet is one on a flat body, of r²(1 − π/4) on each side
    let flat = 3.0 * 2.0 * 0.2 * 1200.0 * 1e-10 * (1.0 - std::f64::consts::FRAC_PI_4);
    assert!(((mass(1e-5, 1200.0) - bare) / flat - 1.0).abs() < 1e-3);
}

#[test]
fn an_outline_has_the_trapezoid_s_area() {
    let points_m = [[0.0, 0.0], [0.05, 0.15], [0.15, 0.15], [0.2, 0.0]];
    let mut scratch = vec![0.0; scratch_len(8)];
    for planform in [TRAPEZOID, Planform::Outline { points_m: &points_m }] {
        let area = geometry(&planform, 8, &mut scratch).unwrap();
        assert!(near(area.area_m2, 0.0225));
        assert_eq!((area.intervals, area.samples), (1, 15));
    }
    let area = geometry(&ELLIPSE, 64, &mut vec![0.0; scratch_len(64)]).unwrap();
    assert!((area.area_m2 - std::f64::consts::PI * 0.2 * 0.1 / 4.0).abs() < 1e-13);
    assert!(near(area.centroid_x_m, 0.1));
}

#[test]
fn chords_are_listed_up_to_the_tip() {
    assert_eq!(chords_at(&TRAPEZOID, 0.0), Ok(vec![[0.0, 0.2]]));
    assert_eq!(
        chords_at(&TRAPEZOID, 0.15),
        Ok(vec![[0.05, (0.05 + 0.2) + (0.1 - 0.2)]])
    );
    assert_eq!(chords_at(&ELLIPSE, 0.1), Ok(vec![[0.1, 0.1]]));
    for height_m in [-0.01, 0.15f64.next_up(), f64::NAN, f64::INFINITY] {
        assert_eq!(chords_at(&TRAPEZOID, height_m), Ok(vec![]));
    }
    let points_m = [[0.0, 0.0], [0.0, 0.2], [0.1, 0.1], [0.2, 0.2], [0.2, 0.0]];
    let teeth = Planform::Outline { points_m: &points_m };
    assert_eq!(chords_at(&teeth, 0.05), Ok(vec![[0.0, 0.2]]));
    assert_eq!(chords_at(&teeth, 0.15).unwrap().len(), 2);
    assert_eq!(chords_at(&teeth, 0.2), Ok(vec![]), "an outline's edges are half-open");
    let flat = Planform::Ellipse {
        root_chord_m: 0.2,
        span_m: 0.0,
    };
    assert_eq!(chords_at(&flat, 0.0), Err(Error::Refused(Refusal::Length { field: 3 })));
    let mut points_m = [[0.0, 0.0]; 64];
    for (k, point) in points_m.iter_mut().enumerate().skip(1) {
        *point = [k as f64 / 64.0, if k % 2 == 1 { 0.125 } else { 0.0625 }];
    }
    points_m[63] = [1.0, 0.0];
    let saw = Planform::Outline { points_m: &points_m };
    assert_eq!(chords_at(&saw, 0.1).unwrap().len(), 31);
}

const TUBES: TubeFinSet = TubeFinSet {
    count: 6,
    length_m: 0.2,
    outer_radius_m: 0.05,
    thickness_m: 0.001,
    base_angle_rad: 0.0,
    density: Density::Bulk { kg_m3: 680.0 },
};

#[test]
fn a_point_has_its_place_and_nearest_corner() {
    let fin = |tip_chord_m, sweep_m| Planform::Trapezoid {
        root_chord_m: 1.0,
        tip_chord_m,
        span_m: 1.0,
        sweep_m,
    };
    let planform = fin(0.5, 0.5);
    assert_eq!(drill(&planform, 0.5, 0.5), Ok(Place::Inside { nearest: 1 }));
    assert_eq!(
        drill(&planform, 0.25, 0.5),
        Ok(Place::Edge { nearest: 0 }),
        "of two the first"
    );
    assert_eq!(drill(&planform, 1.0, -0.0), Ok(Place::Edge { nearest: 3 }));
    assert_eq!(drill(&planform, -0.25, 0.5), Ok(Place::Outside { nearest: 0 }));
    assert_eq!(
        drill(&fin(0.0, 0.5), 0.5, 1.0),
        Ok(Place::Edge { nearest: 1 }),
        "a pointed tip"
    );
    let points_m = [[0.0, 0.0], [0.0, 2.0], [1.0, 1.0], [2.0, 2.0], [2.0, 0.0]];
    let teeth = Planform::Outline { points_m: &points_m };
    assert_eq!(drill(&teeth, 1.0, 1.5), Ok(Place::Outside { nearest: 2 }));
    assert_eq!(
        drill(&teeth, 0.5, 1.0),
        Ok(Place::Inside { nearest: 2 }),
        "at a corner's height"
    );
    let refused = |planform: &Planform, x_m, height_m| table(drill(planform, x_m, height_m).unwrap_err());
    assert_eq!(refused(&planform, f64::NAN, f64::NAN), Refusal::Length { field: 17 });
    assert_eq!(refused(&planform, 0.0, -65.0), Refusal::Length { field: 18 });
    assert_eq!(refused(&ELLIPSE, 0.1, 0.1), Refusal::NoCorners);
    assert_eq!(refused(&planform, 0.1, 0.5), Refusal::NotWholeSteps);
    let step = 1.0 / 1048576.0f64;
    assert_eq!(
        refused(&fin(step.next_up(), 64.0), 0.0, 0.0),
        Refusal::NotWholeSteps,
        "sweep + tip rounds to whole steps"
    );
    assert_eq!(
        drill(&fin(0.5, f64::NAN), 65.0, 65.0),
        Err(Error::Refused(Refusal::Length { field: 4 }))
    );
}

#[test]
fn copies_are_joined_and_parts_move_or_come_off() {
    let can = Body {
        mass_kg: 0.9,
        centre_m: [0.25, 0.0, -0.5],
        inertia_kg_m2: [0.003, 0.003, 0.001, 0.0, 0.0, 0.0],
    };
    assert_eq!(copied(&can, &[[0.0, -0.0]]), Ok(can));
    assert_eq!(placed(&can, &[Placement::HERE]), Ok(can));
    let pair = copied(&can, &[[0.5, 0.0], [-0.5, 0.0]]).unwrap();
    assert_eq!(pair.mass_kg, 1.8);
    assert!((pair.centre_m[0] - 0.25).abs() < 1e-15 && pair.centre_m[1] == 0.0 && pair.centre_m[2] == -0.5);
    let turned = placed(
        &can,
        &[Placement {
            offset_m: [0.0; 2],
            roll_rad: 3.0,
        }],
    )
    .unwrap();
    assert!(turned.centre_m[0] < -0.24, "rolled half round");
    let ballast = Body::point(0.2, [0.0, 0.0, -0.1]);
    let moved = with_part_moved(&can, &ballast, [0.0, 0.9, 0.0]).unwrap();
    assert!((moved.centre_m[1] - 0.2).abs() < 1e-15);
    let rest = without_part(&can, &ballast).unwrap();
    assert_eq!(rest.mass_kg, 0.9 - 0.2);
    assert_ne!(rest.mass_kg + 0.2, can.mass_kg, "conserved up to rounding only");
    let refused = |answer: Result<Body, Error>| table(answer.unwrap_err());
    assert_eq!(refused(copied(&can, &[])), Refusal::Count);
    assert_eq!(refused(placed(&can, &[Placement::HERE; 33])), Refusal::Count);
    assert_eq!(refused(copied(&can, &[[0.0, 65.0]])), Refusal::Length { field: 19 });
    let far = Placement {
        offset_m: [0.0; 2],
        roll_rad: 5.0,
    };
    assert_eq!(refused(placed(&can, &[far])), Refusal::Angle { field: 20 });
    assert_eq!(refused(without_part(&can, &can)), Refusal::NotHeavier);
    assert_eq!(
        refused(with_part_moved(&Body::ZERO, &Body::ZERO, [0.0; 3])),
        Refusal::NotHeavier
    );
    let unsound = Body::point(-1.0, [0.0; 3]);
    let off_centre = Body::point(1.0, [f64::NAN; 3]);
    assert_eq!(
        refused(without_part(&off_centre, &unsound)),
        Refusal::Centre,
        "the whole first"
    );
}

#[test]
fn a_ring_of_tubes_has_figures() {
    let body = tube_mass_properties(&TUBES, 0.05).unwrap();
    let section_m2 = std::f64::consts::PI * (0.05 * 0.05 - 0.049 * 0.049);
    assert!(near(body.mass_kg, 6.0 * 680.0 * section_m2 * 0.2));
    assert!(near(body.centre_m[2], -0.1));
    check(&body).unwrap();
    let wall = |thickness_m| tube_mass_properties(&TubeFinSet { thickness_m, ..TUBES }, 0.05);
    assert_eq!(wall(0.0).unwrap().mass_kg, 0.0);
    wall(0.05).unwrap();
    assert_eq!(wall(0.05f64.next_up()), Err(Error::Refused(Refusal::WallOverRadius)));
    assert_eq!(wall(65.0), Err(Error::Refused(Refusal::Length { field: 7 })));
    let bent = TubeFinSet {
        base_angle_rad: 5.0,
        length_m: 0.0,
        ..TUBES
    };
    assert_eq!(
        tube_mass_properties(&bent, 0.05),
        Err(Error::Refused(Refusal::Angle { field: 13 }))
    );
    let sheet = TubeFinSet {
        density: Density::Surface { kg_m2: 0.1 },
        ..TUBES
    };
    assert_eq!(
        tube_mass_properties(&sheet, 0.05),
        Err(Error::Refused(Refusal::Density))
    );
}

#[test]
fn tubes_close_a_ring() {
    assert!(near(closing_radius_m(0.05, 6).unwrap(), 0.05));
    assert_eq!(closing_radius_m(0.05, 1), Ok(0.05));
    assert_eq!(closing_radius_m(0.05, 2), Ok(0.05));
    assert_eq!(closing_radius_m(f64::NAN, 33), Err(Error::Refused(Refusal::Count)));
    assert_eq!(
        closing_radius_m(f64::NAN, 3),
        Err(Error::Refused(Refusal::Length { field: 11 }))
    );
}

#[test]
fn limits_are_refused_by_number_and_field() {
    let mut scratch = vec![0.0; 128];
    let failed = |limit, scratch: &mut [f64]| mass_properties(&set(ELLIPSE), limit, scratch).unwrap_err();
    assert_eq!(failed(0, &mut scratch).error, Error::Refused(Refusal::Limit));
    assert_eq!(failed(65, &mut scratch).error, Error::Refused(Refusal::Limit));
    assert_eq!(failed(8, &mut scratch[..127]).error, Error::Refused(Refusal::Scratch));
    let mut all = vec![0.0; scratch_len(64)];
    assert_eq!(failed(64, &mut all[..1023]).error, Error::Refused(Refusal::Scratch));
    assert!(mass_properties(&set(ELLIPSE), 64, &mut all).is_ok());
    assert_eq!(most_samples(), 118_110);
    let failed = failed(1, &mut scratch);
    assert_eq!(table(failed.error).number(), 13);
    assert_eq!(failed.samples, 15);
    assert_eq!(
        refusal(FinSet {
            count: 0,
            ..set(TRAPEZOID)
        }),
        Refusal::Count
    );
    assert_eq!(
        refusal(FinSet {
            count: 33,
            ..set(TRAPEZOID)
        }),
        Refusal::Count
    );
    let thin = FinSet {
        thickness_m: 0.0,
        ..set(TRAPEZOID)
    };
    assert_eq!(refusal(thin), Refusal::Length { field: 7 });
    let thick = FinSet {
        thickness_m: 0.21,
        ..set(TRAPEZOID)
    };
    assert_eq!(refusal(thick), Refusal::ThicknessOverRoot);
    let turned = FinSet {
        cant_rad: f64::NAN,
        ..set(TRAPEZOID)
    };
    assert_eq!(refusal(turned), Refusal::Angle { field: 12 });
    let sheet = FinSet {
        density: Density::Surface { kg_m2: 0.1 },
        ..set(TRAPEZOID)
    };
    assert_eq!(refusal(sheet), Refusal::Density);
    let tab = |height_m, offset_m| FinSet {
        tab: Some(Tab {
            height_m,
            length_m: 0.1,
            offset_m,
        }),
        ..set(TRAPEZOID)
    };
    let glued = |radius_m, density| FinSet {
        fillet: Some(Fillet { radius_m, density }),
        ..set(TRAPEZOID)
    };
    let bulk = Density::Bulk { kg_m3: 1200.0 };
    assert_eq!(refusal(glued(65.0, bulk)), Refusal::Length { field: 16 });
    assert_eq!(refusal(glued(0.01, Density::Line { kg_m: 1.0 })), Refusal::Density);
    assert_eq!(refusal(glued(51.0, bulk)), Refusal::FilletRatio);
    assert_eq!(refusal(tab(0.02, -0.01)), Refusal::TabOffRoot);
    assert_eq!(refusal(tab(0.06, 0.0)), Refusal::TabTooDeep);
}

#[test]
fn outlines_are_refused_by_number_and_edges() {
    let refused = |points_m: &[[f64; 2]]| refusal(set(Planform::Outline { points_m }));
    assert_eq!(refused(&[]), Refusal::Points);
    assert_eq!(refused(&[[0.0, 0.0], [0.1, 0.0]]), Refusal::Points);
    assert_eq!(refused(&[[0.0, 0.0], [0.1, 0.1], [0.2, 0.1]]), Refusal::Ends);
    let crossed = [[0.0, 0.0], [2.0, 1.0], [0.0, 1.0], [2.0, 0.0]];
    assert_eq!(refused(&crossed), Refusal::Touches { edges: [0, 2] });
    assert_eq!(refused(&[[0.0, 0.0], [1.0, 0.0], [2.0, 0.0]]), Refusal::NoArea);
}

#[test]
fn points_are_joined() {
    let joined = combine(&[Body::point(1.0, [0.0; 3]), Body::point(1.0, [2.0, 0.0, 0.0])]).unwrap();
    let inertia_kg_m2 = [0.0, 2.0, 2.0, 0.0, 0.0, 0.0];
    let expected = Body {
        mass_kg: 2.0,
        centre_m: [1.0, 0.0, 0.0],
        inertia_kg_m2,
    };
    assert_eq!(joined, expected);
    assert_eq!(combine(&[]), Err(Error::Refused(Refusal::Count)));
    assert_eq!(combine(&[Body::ZERO; 33]), Err(Error::Refused(Refusal::Count)));
    assert_eq!(combine(&[Body::ZERO; 32]), Ok(Body::ZERO));
}

#[test]
fn moments_ascend() {
    let diagonal = |a, b, c| [a, b, c, 0.0, 0.0, 0.0];
    assert_eq!(principal_moments(&diagonal(2.0, 0.0, 2.0)), Ok([0.0, 2.0, 2.0]));
    let entry = Error::Refused(Refusal::Tensor(TensorFault::Entry));
    assert_eq!(principal_moments(&diagonal(f64::INFINITY, 0.0, 0.0)), Err(entry));
}

#[test]
fn bodies_are_checked() {
    let body = |a, b, c| Body {
        inertia_kg_m2: [a, b, c, 0.0, 0.0, 0.0],
        ..Body::point(1.0, [0.0; 3])
    };
    let tensor = |fault| Error::Refused(Refusal::Tensor(fault));
    assert_eq!(check(&body(1.0, 2.0, 3.0)), Ok(()));
    assert_eq!(check(&body(1.0, 1.0, 3.0)), Err(tensor(TensorFault::Triangle)));
    assert_eq!(check(&body(-1.0, 1.0, 1.0)), Err(tensor(TensorFault::Negative)));
    let mut bent = body(1.0, 1.0, 1.0);
    bent.inertia_kg_m2[3] = 0.5;
    assert_eq!(check(&bent), Ok(()));
    assert_eq!(
        check(&Body { mass_kg: 0.0, ..bent }),
        Err(tensor(TensorFault::Massless))
    );
    assert_eq!(check(&Body::point(-1.0, [0.0; 3])), Err(Error::Refused(Refusal::Mass)));
    assert_eq!(
        check(&Body::point(1.0, [0.0, f64::NAN, 0.0])),
        Err(Error::Refused(Refusal::Centre))
    );
}

#[test]
fn lines_are_answered() {
    let (mut scratch, mut engine) = ([0.0; 1024], Engine::new());
    let mut answer =
        |line: &str| String::from_utf8(answer_line(line.as_bytes(), &mut scratch, &mut engine).unwrap()).unwrap();
    assert_eq!(answer("(join)"), "(refused 3)");
    assert_eq!(answer("(set"), "(refused 18)");
    assert_eq!(answer(""), "(refused 18)");
    let (two, zero) = ("4000000000000000", "0000000000000000");
    let moments = format!("(moments {zero} {two} {two})");
    assert_eq!(answer(&format!("(moments #{two} 0 2.0 0 0 0)")), moments);
    assert_eq!(answer(&format!("(moments {two} 0 2.0 0 0 0)")), "(refused 19)");
}

#[test]
fn lines_to_the_engine_find_it_as_the_last_left_it() {
    let (mut scratch, mut engine) = ([0.0; 1024], Engine::new());
    let mut answer =
        |line: &str| String::from_utf8(answer_line(line.as_bytes(), &mut scratch, &mut engine).unwrap()).unwrap();
    let set = |density: u32| {
        format!(
            "(set (limit 64) (count 3) (outline 0 0 0.05 0.1 0.15 0.05 0.2 0) (thickness 0.003) (section square) (cant 0) (base 0) (radius 0.05) (bulk {density}))"
        )
    };
    assert_eq!(answer("(turn)"), "(idle)");
    assert_eq!(answer(&format!("(submit 8 {})", set(680))), "(taken)");
    assert_eq!(answer(&format!("(submit 8 {})", set(680))), "(refused 23)");
    assert_eq!(answer("(turn)"), "(more 8)");
    assert_eq!(answer("(density 8 (bulk 160))"), "(taken)");
    let card = answer(&set(160));
    assert_eq!(answer("(turn)"), format!("(done 8 {card})"));
    assert_eq!(answer("(turn)"), "(idle)");
    // a short scratch is 2 for a turn, and the job waits
    assert_eq!(answer(&format!("(submit 1 {})", set(680))), "(taken)");
    let short = answer_line(b"(turn)", &mut scratch[..1023], &mut engine).unwrap();
    assert_eq!(short, b"(refused 2)");
    let next = answer_line(b"(turn)", &mut scratch, &mut engine).unwrap();
    assert_eq!(next, b"(more 1)");
}

#[test]
fn the_scratch_s_numbers_do_not_matter() {
    let figures = [0.0, f64::NAN, f64::INFINITY, -1e300].map(|x| {
        let mut scratch = vec![x; scratch_len(64)];
        mass_properties(&set(ELLIPSE), 64, &mut scratch).unwrap()
    });
    assert!(figures.iter().all(|f| *f == figures[0]));
}

#[test]
fn threads_get_the_same_figures() {
    let work = || mass_properties(&set(ELLIPSE), 64, &mut vec![0.0; scratch_len(64)]).unwrap();
    let alone = work();
    std::thread::scope(|scope| {
        let threads: Vec<_> = (0..8).map(|_| scope.spawn(|| [0; 50].map(|_| work()))).collect();
        for thread in threads {
            assert!(thread.join().unwrap().iter().all(|f| *f == alone));
        }
    });
}

#[test]
fn the_root_is_the_hardware_s() {
    for x in [0.0, 2.0, 4.0, f64::MIN_POSITIVE, 5e-324, f64::MAX, f64::INFINITY] {
        assert_eq!(sqrt(x).to_bits(), x.sqrt().to_bits());
    }
    assert!(sqrt(-1.0).is_nan());
}
