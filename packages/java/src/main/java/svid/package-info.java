/**
 * Checks SPIFFE JWT-SVIDs, and accepts each of them as often as its service wants, by default once.
 *
 * <p>A service makes one {@link svid.Validator} from its {@link svid.Options} and its {@link svid.Sources} of trust bundles, and shows it
 * the token of each request. It gets an {@link svid.Admission}, or one of two kinds of exceptions:
 *
 * <ul>
 *   <li>{@link svid.Denied}, which is checked: the request is not let in, and the exception has the answer that is due. A {@link
 *       svid.Refusal} is the one about the token.
 *   <li>{@link svid.SvidException}, which is unchecked: there is no answer about the token. The request gets status 503.
 * </ul>
 *
 * <p>{@link svid.ProtectedHandler} does all of that for {@code com.sun.net.httpserver}. Validators of several processes share a {@link
 * svid.Store}, such as {@link svid.PostgresStore}. {@link svid.testing} has what the tests of a service need.
 *
 * <p>A C library decides; the classes of this package bring it tokens, keys, times, files and the answers of stores.
 */
package svid;
